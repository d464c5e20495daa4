"""Runs a campaign, and says what went wrong with it: for lokwurmi campaign."""
import hashlib
import os
import subprocess
import sys

from lokwurmi_tools.campaigns.campaign_faults import CallRefused, Failed, Wrong, say
from lokwurmi_tools.campaigns.campaign_options import CampaignOptions, HammerOptions, VariantOptions
from lokwurmi_tools.campaigns.kept import KeptAnswers, read_bytes
from lokwurmi_tools.shared.system_file import told_of


def try_file(options: CampaignOptions) -> None:
    """Has this machine analyse the file once, so that a refusal is told before a worker is started."""
    done = subprocess.run([options.program, "analyse", options.file], capture_output=True, text=True, check=False)
    if done.returncode >= 10 and done.returncode not in (20, 30):
        raise CallRefused(done.returncode, done.stdout, None)


def perform(options: CampaignOptions, kept: KeptAnswers) -> int:
    """The status of a campaign; what went wrong is told."""
    # these need Dask, and --help doesn't
    from lokwurmi_tools.campaigns.hammer import hammer
    from lokwurmi_tools.campaigns.variants import variants

    try:
        try_file(options)
        if isinstance(options, HammerOptions):
            return hammer(options, kept)
        assert isinstance(options, VariantOptions)
        return variants(options, kept)
    except CallRefused as it:
        sys.stdout.write(it.text)
        if it.script is not None:
            say(f"this is the script that was refused:\n{it.script[:2000]}")
        elif 11 <= it.status <= 14:
            sys.stderr.write(told_of(it.status, it.text.split("\n", 1)[0], "analyse", options.file) or "")
        return it.status
    except Wrong as it:
        say(f"{it}")
        return 2
    except (Failed, OSError) as it:
        say(f"{it}")
        kept.tell()
        return 3
    except KeyboardInterrupt:
        say("interrupted")
        kept.tell()
        return 130


def run_campaign(options: CampaignOptions) -> int:
    """Runs a campaign; its status."""
    try:
        if not os.access(options.program, os.X_OK):
            raise Wrong(f"{options.program} isn't built yet: call ./lokwurmi analyse examples/two_tasks.toml first")
        file, program = (hashlib.sha256(read_bytes(it)).hexdigest() for it in (options.file, options.program))
        kept = KeptAnswers(options.resume, {"command": options.command, "system file": file, "program": program})
    except (Wrong, OSError) as fault:
        say(f"{fault}")
        return 2
    status = perform(options, kept)
    if status not in (3, 130):
        kept.close()
    return status
