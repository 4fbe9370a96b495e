"""What `indexd inspect` says of translogs that are whole, cut and changed."""
import tempfile
from pathlib import Path

from checking import TESTS, check
from playing.program import MOST_BAD_RUNS, lines_of, not_one_complaint, other_output, run
from translog.damaged import logs, opened, torn_at

MOST_FILES = 1_000


def translog():
    def said(log, gives):
        if gives == "BadMagic":
            return "the first bytes aren't this log's header"
        if gives.startswith("Damaged "):
            return f"the frame at offset {gives.partition(' ')[2]} is damaged"
        if gives.startswith("Far "):
            return f"the frame at offset {gives.partition(' ')[2]} is damaged: its number is too far past those before it"
        if gives.startswith("Untorn "):
            return f"the frame at offset {gives.partition(' ')[2]} is damaged: it isn't whole, and no crash leaves it so"
        at = torn_at(log)
        return f"records {gives}" if at is None else f"records {gives}, torn at byte {at}"

    lines = (TESTS / "translog/openings.txt").read_text().splitlines()
    rows = [it.split(" ", 1) for it in lines if not it.startswith("#")]
    table = [(bytes.fromhex(log.strip("-")), gives) for log, gives in rows]
    looked = [(log, gives, opened(log)) for log, gives in table]
    bad = [log.hex() for log, gives, found in looked if found != gives and not (gives.isdigit() and found.startswith(("Far ", "Untorn ")))]
    check("what is found of the lines of translog/openings.txt", "; ".join(bad[:MOST_BAD_RUNS]))
    inspected(f"the {len(table)} lines of translog/openings.txt below its comment", [(log, said(log, found)) for log, _, found in looked])
    changed = [(log, said(log, opened(log))) for log in logs()]
    inspected(f"translogs with each record that are cut or changed in {len(changed)} ways", changed)
    with tempfile.TemporaryDirectory() as folder:
        check("a log that is missing", not_one_complaint(run(["inspect", f"{folder}/missing.rsx"])))
        check("a log that is a folder", not_one_complaint(run(["inspect", folder])))


def inspected(name, rows):
    """`indexd inspect` says of files with each row's bytes what stands beside them, and leaves them as they are."""
    bad = []
    for first in range(0, len(rows), MOST_FILES):
        some = rows[first:first + MOST_FILES]
        with tempfile.TemporaryDirectory() as folder:
            files = [Path(folder) / f"{it}" for it in range(len(some))]
            for file, (log, _) in zip(files, some):
                file.write_bytes(log)
            ran = run(["inspect", *(it.name for it in files)], cwd=folder)
            others = sum(not line.startswith("records") for _, line in some)
            complaint = f"indexd: {others} of {len(some)} files are no whole log of a copy\n" if others else ""
            why = other_output(ran.stdout, lines_of(line for _, line in some)) or other_output(ran.stderr, complaint.encode())
            why = why or ("" if ran.returncode == (others > 0) else f"status {ran.returncode}")
            why = why or ("" if all(file.read_bytes() == log for file, (log, _) in zip(files, some)) else "a file has changed")
            bad += [f"of {len(some)} files from {first} on: {why}"] if why else []
    check(name, "; ".join(bad[:MOST_BAD_RUNS]))
