"""Fails if a Markdown file of the repository links to a file that is not there, or names a path of it that is not there."""
import os
import re
import subprocess
import sys

files = subprocess.run(["git", "ls-files", "-co", "--exclude-standard", "*.md"], capture_output=True, text=True, check=True).stdout.split()
bad = []
for name in files:
    with open(name, encoding="utf-8") as f:
        text = f.read()
    for target in re.findall(r"\]\(([^)#\s]+)", text):
        if not re.match(r"\w+:", target) and not os.path.exists(os.path.join(os.path.dirname(name), target)):
            bad.append("%s: link to %s" % (name, target))
    for path in re.findall(r"`((?:crates|docs|samples|outside|include|examples)/[\w./+·-]+)`", text):
        if not os.path.exists(path):
            bad.append("%s: names %s" % (name, path))
print("\n".join(bad) if bad else "links: %d files, nothing missing" % len(files))
sys.exit(1 if bad else 0)
