"""The table: whole as a file of values between tabs, and what differed as a table of Markdown."""
import os
import subprocess
import sys

FIGURES = ("files", "bytes", "operation", "rsync", "rsync_z", "xz")
COLUMNS = ("name", *FIGURES, "same", "other", "careful", *(f"careful_{it}" for it in FIGURES), "differed", "script", "careful_script",
           "apart", "apart_user")
BEGIN, END = "<!-- real work: by bench/work/run.sh -->\n", "<!-- real work: its end -->\n"
APART = ("apart", "apart_user")
DONE = ("done", "repaired", "renamed")
WANTED = 36


def row_of(piece, ways):
    """The values of a piece's row."""
    same, other, careful = ways["same"], ways.get("other", {}), ways["careful"]
    asked = (same, other, careful, *(ways.get(it, {}) for it in APART))
    declined = next((it for it in asked if it and it["outcome"] == "declined"), None)
    return {
        "name": piece.name,
        **{it: same.get(it, "") for it in FIGURES},
        "same": same["outcome"], "other": other.get("outcome", ""), "careful": careful["outcome"],
        **{f"careful_{it}": careful.get(it, "") for it in FIGURES},
        "differed": why(declined) if declined else "",
        "script": piece.script, "careful_script": careful_text(piece),
        **{it: ways.get(it, {}).get("outcome", "") for it in APART},
    }


def careful_text(piece):
    if not piece.has_careful():
        return ""
    words = [it for it in piece.careful_words.split() if it not in piece.words.split()]
    return " ".join([*words, piece.careful or piece.script])


def why(seen):
    """What differed: by what the client said, and else by the files themselves."""
    _, found, reason = seen["told"].partition("declined: ")
    return reason.partition(";")[0] if found else seen["differ"]


def count(rows, way):
    return sum(row[way] in DONE for row in rows)


def number(value):
    return f"{value:,}" if isinstance(value, int) else value


def markdown(rows, has_other):
    """The table of the pieces that were not done in every way; the file of values has them all."""
    ways = [("one user", "same"), *([("two users", "other")] if has_other else []), ("as COMMANDS.md", "careful")]
    ways += [("apart", "apart"), *([("apart, as nobody", "apart_user")] if has_other else [])]
    heads = ["work", "bytes", "operation", "`rsync -z`", *(head for head, _ in ways), "what differed"]
    lines = ["| " + " | ".join(heads) + " |", "|---" * len(heads) + "|"]
    for row in rows:
        if any(row[way] != "done" for _, way in ways):
            cells = [code(row["name"]), *(number(row[it]) for it in ("bytes", "operation", "rsync_z"))]
            cells += [*(row[way] for _, way in ways), code(row["differed"])]
            lines.append("| " + " | ".join(cells) + " |")
    return "\n".join(lines) + "\n"


def code(text):
    return "`" + text.replace("|", "\\|") + "`" if text else ""


def renew_page(page, text):
    """Puts the table between the two marks of the page, where it is there and has them. Answers whether it has."""
    if not os.path.exists(page):
        return False
    with open(page) as file:
        before, begun, rest = file.read().partition(BEGIN)
    _, ended, after = rest.partition(END)
    if begun and ended:
        with open(page, "w") as file:
            file.write(f"{before}{BEGIN}\n{text}\n{END}{after}")
    return bool(begun and ended)


def show(pieces, out, has_other, is_part):
    """Writes and prints the table. Gives the status."""
    rows = [row_of(piece, ways) for piece, ways in pieces]
    text = markdown(rows, has_other)
    counts = f"Done of {len(rows)}: {count(rows, 'same')} as one user, "
    counts += f"{count(rows, 'other')} as two, " if has_other else ""
    counts += f"{count(rows, 'careful')} as docs/COMMANDS.md writes them; of these, apart, {count(rows, 'apart')}"
    counts += f" and, as nobody, {count(rows, 'apart_user')}.\n" if has_other else ".\n"
    with open(f"{out}/work.tsv", "w") as file:
        file.write("\t".join(COLUMNS) + "\n")
        file.writelines("\t".join(str(row[it]) for it in COLUMNS) + "\n" for row in rows)
    if is_part or not renew_page(f"{out}/MEASUREMENTS.md", text + "\n" + counts):
        with open(f"{out}/work.md", "w") as file:
            file.write(text + "\n" + counts)
    here = os.path.dirname(os.path.abspath(__file__))
    subprocess.run([sys.executable, "-B", f"{here}/picture.py", f"{out}/work.tsv", f"{out}/work.svg"], check=True)
    print(text + "\n" + counts)
    hung = [row["name"] for row in rows if any(row[it].startswith("hung") for it in ("same", "other", "careful", *APART))]
    for name in hung:
        print(f"missed: {name} has no answer")
    few = not is_part and len(rows) >= 42 and max(count(rows, "same"), count(rows, "careful")) < WANTED
    if few:
        print(f"missed: {WANTED} of them done")
    return 1 if hung or few else 0
