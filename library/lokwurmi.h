/* Calls of Lokwurmi in the process of the caller.
 *
 * Each function but those of a session that is kept does what the command of its name does: docs/FILES.md says what it reads and what it writes.
 * It is handed texts, where the command is handed files, and gives the text that the command writes, byte by byte. In a line that has the name
 * of a file, that is `system`, `script`, `trace`, `schedule` or `chains`. All times are in ticks; a tick is whatever you take it for.
 *
 * Pointers. Every pointer points at memory of the caller, and none may be NULL, also where its length is 0. Texts are bytes, with no zero at
 * their end. No two pointers of a call may lead to the same memory, but for texts that are only read. No pointer is kept once a call has returned.
 * All that a call allocates, by malloc, is freed when it returns; only an open handle owns memory between calls. That is tested, by valgrind, and
 * not proved.
 *
 * Texts that are given. A call writes its text to out, as far as out_len goes, and puts the length of the whole text into *used. Where that is
 * more than out_len, the text is cut off at out_len: call again with more room. The report of a system of the greatest size has less
 * than 2 MiB, or 128 KiB where its file has format 1 or 2. No zero is written at the end.
 *
 * Threads. No function starts a thread, takes a lock or reads a file, and none keeps anything from one call to the next but in a handle. So any
 * number of threads may call at the same time, each with an out, a used and handles of its own. Don't call from a signal handler, nor in a process
 * forked from one with threads.
 *
 * Stack. 1 MiB is enough for each call.
 */
#ifndef LOKWURMI_H
#define LOKWURMI_H

#include <stddef.h>
#include <stdint.h>

#ifdef __cplusplus
extern "C" {
#endif

/* What the functions return: docs/FILES.md, "Statuses". */
enum lokwurmi_status {
    LOKWURMI_OK = 0,                /* all is done; of a report or of bounds: no bound is `overload`, and no deadline is missed */
    LOKWURMI_MISSED = 1,            /* analyse, session, chains, bounds, latencies, report: a deadline is missed, and no bound is `overload` */
    LOKWURMI_OVERLOAD = 2,          /* the same, and chain: a bound is `overload`; of session, in the last report */
    LOKWURMI_NONE = 3,              /* assign: no order meets; slack: a deadline is missed already, or a path with one has no bound */
    LOKWURMI_DIFFERS = 4,           /* audit: the schedule isn't that of the run */
    LOKWURMI_WORDS_REFUSED = 10,    /* a number is out of its range, or a name is no text of UTF-8, or a handle isn't open (of open: is open already);
                                       no text is given. Of chain also: the names are refused as words, with the program's text `words refused` */
    LOKWURMI_TOO_LONG = 12,         /* a system, a script or a text of chains has more than 1,048,576 bytes; a system of format 4, a trace or a schedule
                                       more than 16,777,216 */
    LOKWURMI_NOT_TOML = 13,         /* the system isn't TOML, or the chains aren't */
    LOKWURMI_SYSTEM_REFUSED = 14,   /* it is TOML and no system; the text has the reason, the list and the place of the entry */
    LOKWURMI_SCRIPT_REFUSED = 15,   /* the script is refused; the text has the line. Of edit: it isn't one edit */
    LOKWURMI_TRACE_REFUSED = 16,    /* the trace is refused; the text has the row */
    LOKWURMI_TRACE_DISOBEYS = 17,   /* the trace doesn't obey the system; the text has the first breach */
    LOKWURMI_NAME_REFUSED = 18,     /* the resource of assign, the task of slack, one of chain, or the text of chains is refused; the text has the reason */
    LOKWURMI_SCHEDULE_REFUSED = 19, /* the schedule is refused; the text has the row */
    LOKWURMI_EDIT_REFUSED = 21,     /* edit: the edit breaks a rule, and nothing has changed; the text has the rule's number */
    LOKWURMI_NO_MEMORY = 30         /* malloc gave none; no text is given, and *used is 0 */
};

/* The version of these functions, 2: it rises where one of them changes or is added. */
uint32_t lokwurmi_version(void);

/* The report of a system. */
uint8_t lokwurmi_analyse(const uint8_t *system, size_t system_len, uint8_t *out, size_t out_len, size_t *used);

/* The reports of a system under a script, and a line for each edit that is refused. */
uint8_t lokwurmi_session(const uint8_t *system, size_t system_len, const uint8_t *script, size_t script_len, uint8_t *out, size_t out_len, size_t *used);

/* What is observed of a system under a trace. */
uint8_t lokwurmi_simulate(const uint8_t *system, size_t system_len, const uint8_t *trace, size_t trace_len, uint8_t *out, size_t out_len, size_t *used);

/* The segments of the run of a system under a trace: its schedule, of which audit then finds no difference. It can be far longer than the trace:
 * where it doesn't fit, *used has the room to call again with. */
uint8_t lokwurmi_schedule(const uint8_t *system, size_t system_len, const uint8_t *trace, size_t trace_len, uint8_t *out, size_t out_len, size_t *used);

/* How many jobs of a system wait under a trace, and how many can. */
uint8_t lokwurmi_buffers(const uint8_t *system, size_t system_len, const uint8_t *trace, size_t trace_len, uint8_t *out, size_t out_len, size_t *used);

/* Whether a schedule is that of a system under a trace, or where it first differs. */
uint8_t lokwurmi_audit(const uint8_t *system, size_t system_len, const uint8_t *trace, size_t trace_len, const uint8_t *schedule, size_t schedule_len, uint8_t *out, size_t out_len, size_t *used);

/* Bounds on the reaction time and the data age of a chain of 1 to 32 tasks of a system. `tasks` has their names in the order of the chain, one a
 * line, and its last line may lack the line end: "read\nplan\nact". They are refused as the words of the command are (10): none, more than 32, one
 * that is empty or begins with `-`. while_running other than 0 presumes that jobs read only while they run (`--while-running`).
 * The bounds hold where no source falls silent: where events come farther apart than period and jitter say, they are void. */
uint8_t lokwurmi_chain(const uint8_t *system, size_t system_len, const uint8_t *tasks, size_t tasks_len, uint8_t while_running, uint8_t *out, size_t out_len, size_t *used);

/* The bounds of the chains in a file of chains, with the verdicts on their deadlines. They hold where no source falls silent, as above. */
uint8_t lokwurmi_chains(const uint8_t *system, size_t system_len, const uint8_t *chains, size_t chains_len, uint8_t *out, size_t out_len, size_t *used);

/* The file of the system that is generated from a seed of at most 4,294,967,295 and a size of at most 128. */
uint8_t lokwurmi_generate(uint64_t number, uint64_t size, uint8_t *out, size_t out_len, size_t *used);

/* What is observed of a system under 1 to 10,000 traces that are generated from such a seed. They are replayed one after the other, on the calling thread. */
uint8_t lokwurmi_hammer(const uint8_t *system, size_t system_len, uint64_t number, uint64_t traces, uint8_t *out, size_t out_len, size_t *used);

/* Priorities on the resource with a name under which each of its tasks meets its deadline, or that there are none. */
uint8_t lokwurmi_assign(const uint8_t *system, size_t system_len, const uint8_t *resource, size_t resource_len, uint8_t *out, size_t out_len, size_t *used);

/* By how many ticks the greatest execution of the task with a name may grow while all deadlines are met. */
uint8_t lokwurmi_slack(const uint8_t *system, size_t system_len, const uint8_t *task, size_t task_len, uint8_t *out, size_t out_len, size_t *used);

/* A session that is kept: a system under edits, with its worst-case response times, which make the next analysis cheap.
 *
 * The handle lies in memory of the caller, begins as LOKWURMI_CLOSED, and is handed to each call by its address. lokwurmi_open opens it, and
 * lokwurmi_close closes it and frees what it owns (tested, not proved). Every other call of a handle that isn't open returns 10 and does nothing; to close it again is
 * harmless. A handle that is never closed keeps its memory.
 *
 * The caller owes three things. Nobody else writes the two fields. The struct isn't copied; where it was, only one of the two is used from then on.
 * Calls of one handle don't overlap in time: threads may take turns, ordered by a lock or by the start or the end of a thread. */
typedef struct lokwurmi_handle {
    uint64_t open; /* 0 of a closed handle */
    void *kept;    /* owned by the library */
} lokwurmi_handle;

#define LOKWURMI_CLOSED {0, NULL}

/* Stands among the numbers of lokwurmi_bounds and lokwurmi_latencies for a task or a path without a bound, which is `overload` in a report. */
#define LOKWURMI_UNBOUNDED UINT64_MAX

/* The most bytes of a system's file, and the most tasks and paths of a system: those of format 4. Formats 1 and 2 allow 1,048,576, 512 and 128. */
#define LOKWURMI_MOST_FILE_BYTES 16777216
#define LOKWURMI_MOST_TASKS 8192
#define LOKWURMI_MOST_PATHS 2048

/* Opens a closed handle on a system, which is analysed. Where the system is refused the status is 12, 13 or 14, the text is the program's line, and
 * the handle stays closed. With 0 no text is given. With 30 the handle stays closed. */
uint8_t lokwurmi_open(lokwurmi_handle *handle, const uint8_t *system, size_t system_len, uint8_t *out, size_t out_len, size_t *used);

/* Makes one edit of the kept system, and analyses what it reaches. The edit is a line of a script (docs/FILES.md, "The script"), as `exec t2 1 7`.
 * With 0 the edit is made, and no text is given. With any other status the system and its bounds are as before the call:
 * 15, the text isn't one edit: `script refused line N`, `script refused too many lines`, or `script refused no edit` where it has none, or more than one;
 * 21, the edit breaks rule R of docs/FILES.md: `line N refused R`, where N counts the lines of the text, and is 1 where it has one;
 * 30, out of memory. */
uint8_t lokwurmi_edit(lokwurmi_handle *handle, const uint8_t *edit, size_t edit_len, uint8_t *out, size_t out_len, size_t *used);

/* The worst-case response times of the tasks of the kept system, in ticks, in the order of its tasks: the numbers of its report. They are written to
 * bounds as far as it has room, for length numbers, and *used is how many there are: at most LOKWURMI_MOST_TASKS, and 512 where the system's file has
 * format 1 or 2. The status is the verdict on the system, as of a report: 0, 1 or 2. An added task is the last one; where one is removed, those behind
 * it move up. */
uint8_t lokwurmi_bounds(lokwurmi_handle *handle, uint64_t *bounds, size_t length, size_t *used);

/* The worst-case latencies of the paths of the kept system, likewise, in the order of its paths: at most LOKWURMI_MOST_PATHS, and 128 where the system's
 * file has format 1 or 2. */
uint8_t lokwurmi_latencies(lokwurmi_handle *handle, uint64_t *latencies, size_t length, size_t *used);

/* The report of the kept system: text and status are those of lokwurmi_analyse for a file of the system as edited. */
uint8_t lokwurmi_report(lokwurmi_handle *handle, uint8_t *out, size_t out_len, size_t *used);

/* Closes a handle, which is then LOKWURMI_CLOSED. */
void lokwurmi_close(lokwurmi_handle *handle);

#ifdef __cplusplus
}
#endif

#endif
