#!/usr/bin/env python3
"""Holds README.md and docs/ to what happens.

On README.md and docs/RULES.md, from the top of the page down:
1. a block ```LANGUAGE FILE is written to FILE, which stands in target/ and is named in the line before the block;
2. a block ```sh is run in bash from the top of the repository, but for the line `.ci/run`; where the next block is ```text, it is what is printed;
3. the blocks ```bytes, an offset, bytes and a meaning to a line, are the sheets of examples/document, and what `replay` prints of them is the page's.
Every link between pages leads somewhere. docs/RULES.md has a row and advice for every refusal number of model/specs/Refusals.antt, and a row for every call of include/pnet.h. No line of a page
is longer than 800 characters.
What the gate has built before this runs is not built again: `tools/build` does nothing where what it would make is made of the same files.
"""
import pathlib, re, subprocess, sys

top = pathlib.Path(__file__).resolve().parent.parent
faults = []
counts = dict(blocks=0, files=0, texts=0, sheets=0)


def blocks(text):
    """Each fenced block: the text before it, the words after its fence, its lines."""
    at = 0
    for found in re.finditer(r"^```(.*)\n((?:.*\n)*?)```$", text, re.M):
        yield text[at : found.start()].rstrip(), found.group(1).split(), found.group(2)
        at = found.end()


def write(page, before, file, content):
    if f"`{file}`" not in before.split("\n")[-1] or not file.startswith("target/"):
        faults.append(f"{page}: the line before the block of {file} does not name it")
    path = top / file
    path.parent.mkdir(parents=True, exist_ok=True)
    path.write_text(content)
    counts["files"] += 1


def run(commands):
    kept = "".join(line for line in commands.splitlines(True) if line.split("#")[0].strip() != ".ci/run")
    ran = subprocess.run(["bash", "-eu", "-c", kept], cwd=top, stdin=subprocess.DEVNULL, capture_output=True, text=True)
    counts["blocks"] += 1
    return ran.returncode, ran.stdout, ran.stderr


def compare(page, commands, printed, text):
    counts["texts"] += 1
    if printed != text:
        faults.append(f"{page}: this prints something else than the page has:\n{commands}\n--- printed\n{printed}--- on the page\n{text}")


def check_commands(page):
    last = None  # commands that were just run, and what they printed
    for before, words, content in blocks((top / page).read_text()):
        if words[:1] == ["sh"]:
            status, printed, errors = run(content)
            if status != 0:
                faults.append(f"{page}: status {status}:\n{content}{errors}")
            last = content, printed
            continue
        if words == ["text"] and last:
            compare(page, *last, content)
        elif len(words) == 2:
            write(page, before, words[1], content)
        last = None


def sheet_of(page, content):
    data = b""
    for line in content.splitlines():
        found = re.fullmatch(r" *(\d+)  ((?:[0-9A-F]{2} )*[0-9A-F]{2})  +\S.*", line)
        if not found or int(found.group(1)) != len(data):
            faults.append(f"{page}: after {len(data)} bytes: {line}")
            return b""
        data += bytes.fromhex(found.group(2))
    counts["sheets"] += 1
    return data


def check_bytes(page):
    found = [(words, content) for _, words, content in blocks((top / page).read_text())]
    sheets = [sheet_of(page, content) for words, content in found if words == ["bytes"]]
    last = max(at for at, (words, _) in enumerate(found) if words == ["bytes"])
    text = next(content for words, content in found[last:] if words == ["text"])
    ran = subprocess.run([top / "target/bin/replay"], input=b"".join(sheets), stdout=subprocess.PIPE)
    compare(page, "replay, of the bytes on the page", ran.stdout.decode(), text)
    for name, data in zip(("net", "weights", "movements"), sheets, strict=True):
        if data != (top / f"examples/document/{name}.sheet").read_bytes():
            faults.append(f"{page}: the bytes are not those of examples/document/{name}.sheet")


def check_complete(page):
    text = (top / page).read_text()
    numbers = set(map(int, re.findall(r"= says(?:_by)? (\d+) ", (top / "crates/model/specs/Refusals.antt").read_text())))
    rows = set(map(int, re.findall(r"^\| (\d+) \| .* \| .* \| .* \|$", text.split("## Refusals")[1].split("### What to do")[0], re.M)))
    advice = set(map(int, re.findall(r"^- \*\*(\d+), ", text, re.M)))
    if rows - {0} != numbers or advice != numbers:
        faults.append(f"{page}: numbers {sorted(numbers)}, rows {sorted(rows)}, advice {sorted(advice)}")
    calls = text.split("### Calls")[1].split("\n## ")[0]
    for call in sorted(set(re.findall(r"\bpnet_(?!abi)(\w+)\(", (top / "include/pnet.h").read_text()))):
        if not re.search(rf"^\|.*`{call}`.*\|.*\|.*\|$", calls, re.M):
            faults.append(f"{page}: no row for the call {call}")


def headings(page):
    """The headings of a page as links name them."""
    for heading in re.findall(r"^#+ (.*)$", page.read_text(), re.M):
        yield re.sub(r"[^\w -]", "", heading.lower()).replace(" ", "-")


def check_links(page):
    for link in re.findall(r"\]\(([^)]+)\)", (top / page).read_text()):
        path, _, heading = link.partition("#")
        target = (top / page).parent / path if path else top / page
        if not target.is_file() or heading and heading not in headings(target):
            faults.append(f"{page}: {link} leads nowhere")


def check_lines():
    for page in [top / "README.md", *sorted((top / "docs").rglob("*.md"))]:
        for number, line in enumerate(page.read_text().splitlines(), 1):
            if len(line) > 800:
                faults.append(f"{page.relative_to(top)}: line {number} has {len(line)} characters")


check_lines()
check_bytes("docs/RULES.md")
check_complete("docs/RULES.md")
for page in ("README.md", "docs/RULES.md"):
    check_links(page)
    check_commands(page)
for fault in faults:
    print(fault, file=sys.stderr)
print("pages: " + ", ".join(f"{count} {what}" for what, count in counts.items()) + f", {len(faults)} faults")
sys.exit(1 if faults or 0 in counts.values() else 0)
