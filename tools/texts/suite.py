"""Where the texts go, and the program that is run on them."""
import pathlib

ROOT = pathlib.Path(__file__).resolve().parent.parent.parent
FOLDER = ROOT / 'crates/log_suite'  # the program's crate; its files stdin and stdout are the texts and their logs
PROGRAM = FOLDER / 'out' / FOLDER.name
