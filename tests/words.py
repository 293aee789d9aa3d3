#!/usr/bin/env python3
"""Whether tools/words.py finds each kind of word that was left for the field's.

    tests/words.py

Each line is one check: in a copy a name is put back, and the tool has to name it with its file. The last line counts those that
passed and failed, and the status is 1 where one failed.
"""
import os
import shutil
import subprocess
import sys
import tempfile

from testing import ROOT
from testing.checks import Checks

SERVICE = "service/src"
# What is put back, in which file, a text there and what stands in its place, and what the tool names.
WORDS = (
    ("an option in a page", "docs/OPERATING.md", "`--max-ahead`", "`--most-ahead`", "--most-ahead"),
    ("a setting in the environment", "docs/OPERATING.md", "`--max-ahead`", "`TOTXEGUN_WHOLE`", "TOTXEGUN_WHOLE"),
    ("an option of the program", f"{SERVICE}/runs/rules.rs", "TOTXEGUN_INITIAL_VALUE", "TOTXEGUN_FIRST", "first"),
    ("an option in a help", f"{SERVICE}/command/serve.rs", "/// Where senders call OTLP/gRPC", "/// As --operate, of gRPC", "--operate"),
    ("a word of prose in a help", f"{SERVICE}/command/serve.rs", "points are rejected", "points are foreign", "foreign"),
    ("a command in an alert", "operate/alerts.yml", "totxegun dead-letters list", "totxegun dead list", "totxegun dead"),
    ("a route of a page", "docs/FORMATS.md", "`/dead-letters/KEY/drop`", "`/dead/KEY/drop`", "/dead"),
    ("a route that the program asks for", f"{SERVICE}/command/letters.rs", '"/dead-letters"', '"/dead"', "/dead"),
    ("a metric in an alert", "operate/alerts.yml", "totxegun_requests_total", "totxegun_posts_total", "totxegun_posts_total"),
    ("a metric of the program", f"{SERVICE}/metrics/mod.rs", '"sender_quota_ratio"', '"sender_share_ratio"', "sender_share_ratio"),
    ("a label", f"{SERVICE}/metrics/mod.rs", '["code", "reason"]', '["status", "reason"]', "status"),
    ("a field of the status", f"{SERVICE}/admin/status.rs", "pub dead_letters: u64", "pub dead: u64", "dead"),
    ("a field that is renamed", f"{SERVICE}/otlp/explain.rs", 'rename = "rejected"', 'rename = "foreign"', "foreign"),
    ("a field of acts.jsonl", f"{SERVICE}/admin/audit_log.rs", "    action: &", "    act: &", "act"),
    ("a field of the log", f"{SERVICE}/admin/audit_log.rs", "args, outcome", "given = args, outcome", "given"),
    ("a text of the log", f"{SERVICE}/sink/delivery.rs", "the sink has not taken a request", "a dead request", "dead request"),
    ("a table", f"{SERVICE}/sink/sqlite/schema.sql", "create table requests (", "create table request (", "request"),
    ("a view", f"{SERVICE}/sink/postgres/schema.sql", "create view totxegun.resources_seen", "create view totxegun.senders", "senders"),
    ("a column behind another", f"{SERVICE}/sink/sqlite/schema.sql", "adjustments, total_adjusted", "adjustments, billed", "billed"),
    ("a keyword as a column", f"{SERVICE}/sink/sqlite/schema.sql", "    lower_bound,", '    "from",', "from"),
    ("a column of a query", "docs/QUERIES.md", "sum(total_adjusted)", "sum(billed)", "billed"),
    ("an exception that nothing needs", "docs/FORMATS.md", "instead of `out of order`", "otherwise", "instead of"),
)


def said(folder: str) -> tuple[int, str]:
    ran = subprocess.run([f"{folder}/tools/words.py", "--check"], capture_output=True, text=True, check=False)
    return ran.returncode, ran.stdout + ran.stderr


def main() -> int:
    checks = Checks()
    with tempfile.TemporaryDirectory(prefix="words-") as folder:
        for name in ("tools", "docs", "operate", "packaging", "service/src"):
            shutil.copytree(f"{ROOT}/{name}", f"{folder}/{name}", ignore=shutil.ignore_patterns("__pycache__"))
        for name in ("README.md", "SECURITY.md", "CHANGELOG.md"):
            shutil.copy(f"{ROOT}/{name}", folder)
        checks.same("nothing is found where nothing is", (0, "no word that was left\n"), said(folder))
        for what, name, old, new, word in WORDS:
            path = os.path.join(folder, name)
            with open(path, encoding="utf-8") as file:
                text = file.read()
            checks.true(f"{what}: it can be put back", old in text, old)
            with open(path, "w", encoding="utf-8") as file:
                file.write(text.replace(old, new, 1))
            status, out = said(folder)
            checks.true(f"{what} is found", status == 1 and any(name in line and word in line for line in out.splitlines()), out[-500:])
            with open(path, "w", encoding="utf-8") as file:
                file.write(text)
    return checks.end()


if __name__ == "__main__":
    sys.exit(main())
