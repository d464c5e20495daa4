#!/usr/bin/env bash
# Analyses each system of this folder, replays each trace, audits and writes each schedule and takes each script beside one,
# makes and hammers systems, looks for priority orders, room to grow, jobs that wait and chains, and compares what is printed with what
# stands beside it. It ends with 1 where something differs. A word names another lokwurmi than the one above this folder.
program=../lokwurmi
[ -z "${1-}" ] || program=$(realpath "$(command -v -- "$1")") || exit 1
cd "$(dirname "$0")" || exit 1
status=0
# tell WHAT TEXT WORD..: the command with these words writes the text
tell() {
  local what=$1 text=$2
  shift 2
  if "$program" "$@" | cmp -s - "$text"; then
    echo "$what: as told"
  else
    echo "$what: another text"
    status=1
  fi
}
for system in *.toml; do
  # beside the systems files of chains stand
  [[ $system != *.chains.toml ]] || continue
  tell "$system" "${system%.toml}.report.txt" analyse "$system"
done
for trace in *.trace.csv; do
  name=${trace%.trace.csv}
  tell "$trace" "$name.run.txt" simulate "$name.toml" "$trace"
done
for schedule in *.schedule.csv; do
  name=${schedule%.schedule.csv}
  tell "$schedule" "$name.audit.txt" audit "$name.toml" "$name.trace.csv" "$schedule"
  tell "schedule of $name" "$schedule" schedule "$name.toml" "$name.trace.csv"
done
for buffers in *.buffers.txt; do
  name=${buffers%.buffers.txt}
  tell "$buffers" "$buffers" buffers "$name.toml" "$name.trace.csv" --workers 2
done
for script in *.script.txt; do
  name=${script%.script.txt}
  tell "$script" "$name.session.txt" session "$name.toml" "$script"
done
tell "chain of effects.toml" effects.chain.txt chain effects.toml sense filter act
tell "chains of effects.toml" effects.chains.txt chains effects.toml effects.chains.toml
tell "chain of camera_brake.toml" camera_brake.chain.txt chain camera_brake.toml capture detect send request decide act
tell "chain of brake_pedal.toml" brake_pedal.chain.txt chain brake_pedal.toml decide act
tell "brake_pedal.chains.toml" brake_pedal.chains.txt chains brake_pedal.toml brake_pedal.chains.toml
tell "camera_brake.chains.toml" camera_brake.chains.txt chains camera_brake.toml camera_brake.chains.toml
# made_system.toml is what was made, with a head before it
tell "generate 42 1" <(grep -v '^#' made_system.toml) generate 42 1
tell "load 42 1" made_system.load.txt load 42 1
tell "hammer long_window.toml 1 1" long_window.hammer.txt hammer long_window.toml 1 1
tell "hammer crossing_chains.toml 1 20" crossing_chains.hammer.txt hammer crossing_chains.toml 1 20
tell "assign deadline_order.toml cpu" deadline_order.assign.txt assign deadline_order.toml cpu
tell "assign sae_can.toml can" sae_can.assign.txt assign sae_can.toml can
tell "assign cooperative.toml cpu" cooperative.assign.txt assign cooperative.toml cpu
tell "assign regions.toml cpu" regions.assign.txt assign regions.toml cpu
tell "assign lock_order.toml cpu" lock_order.assign.txt assign lock_order.toml cpu
tell "slack sae_can.toml m16" sae_can.slack.txt slack sae_can.toml m16
tell "slack cooperative.toml log" cooperative.slack.txt slack cooperative.toml log
tell "slack regions.toml a" regions.slack.txt slack regions.toml a
tell "slack car_network.toml sense0 --workers 4" car_network.slack.txt slack car_network.toml sense0 --workers 4
tell "analyse car_network.toml --workers 4" car_network.report.txt analyse car_network.toml --workers 4
exit "$status"
