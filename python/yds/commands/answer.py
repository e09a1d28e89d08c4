"""yds-answer: any answer of yds_cli as JSON, or one of its tables as CSV."""

from __future__ import annotations

import sys
from typing import Callable, List, Sequence

from yds._answered import Tables
from yds._forms_of_answers import NUMBER, TABLES, Cell, Cells
from yds._progress import beside
from yds._text import STANDARD_INPUT, lines
from yds._words import DONE, NO, Command, Files, Given, Option, WordsError, run

COMMAND = Command(
    "yds-answer",
    "any answer of yds_cli as JSON, or one of its tables as CSV",
    """
    yds_cli plan < document.txt | yds-answer > plan.json
    yds_cli plan < document.txt | yds-answer --csv slots > slots.csv
    yds-answer out/*.txt > answers.jsonl

Input: answers, or documents; each command's, those of yds-energy and yds-misses too. Each kind of line is a table:

  jobs points slots runs ticks levels pieces members grids energies      of a document
  verdicts refusals too_slow                  of audit, check, round, and of any refused document
  report levels                               of report
  energies times roundings too_slow misses    of compare and yds-energy, by side
  breaks refused_jobs one_level trial         of curve, admit, expand, trial
  missed, and verdicts of jobs whose runs     of yds-misses, whose `# due at` is a column due, and by how much a job was
  aren't in the document                      late a column late, late_at_least, late_ms or not_ended_ms
  comments                                    what else begins with #

Output: one object on one line, each table in it an array of objects; for several files a line for each, with its name
as `file`. With --csv the one table, its first line the columns; for several files the first column is the file. A
fraction stands there twice: as a decimal of 15 digits, and as the exact text under the same name with _exact. A slot's
speed, its work by its time, is a decimal alone. Levels count from 1; a piece and a member have the number of their
level. In the document's units.
""",
    [Option("csv", "this table as CSV, in place of JSON", "TABLE")],
    Files("ANSWER", 0, None),
    "0 done; 1 a line of no answer, or for --csv a file without that table (said on standard error); 2 a fault of the "
    "words.",
)


def main(words: Sequence[str]) -> int:
    """Writes the tables of the files' answers, or of standard input's."""
    return run(COMMAND, words, tell)


def tell(given: Given, write: Callable[[str], None]) -> int:
    """Writes JSON, or CSV."""
    if given.csv is not None and given.csv not in TABLES:
        raise WordsError(f"--csv {given.csv}: there are {' '.join(TABLES)}")
    files = given.files or [STANDARD_INPUT]
    names = [file.encode("utf-8", "surrogateescape").decode("latin-1") for file in files]
    several = len(files) > 1
    tables = Tables()
    absent = False
    for file, name in zip(files, names):
        tables = tables if given.csv is not None else Tables()
        tables.begin()
        tables.file = name if several and given.csv is not None else ""
        before = {table: len(rows) for table, rows in tables.rows.items()}
        for line in lines([file]):
            tables.take(line)
        tables.end()
        if given.csv is None:
            write(as_json(tables, name if several else ""))
            continue
        there = [table for table, rows in tables.rows.items() if len(rows) > before.get(table, 0)]
        if given.csv not in there:
            where = f" in {file}" if several else ""
            told = f"are {', '.join(there)}" if there else "is nothing"
            beside(f"yds-answer: no {given.csv}{where}; there {told}\n")
            absent = True
    for text in as_csv(tables, given.csv) if given.csv in tables.rows else []:
        write(text)
    return NO if absent else DONE


def as_json(tables: Tables, file: str) -> str:
    """All tables as one object."""
    parts = [f'"file":{quoted(file)}'] if file else []
    for table, rows in tables.rows.items():
        columns = list(tables.columns[table])
        parts.append(f'"{table}":[{",".join(object_of(row, columns) for row in rows)}]')
    return "{" + ",".join(parts) + "}"


def object_of(row: Cells, columns: Sequence[str]) -> str:
    """A row as an object."""
    return "{" + ",".join(f'"{column}":{json_of(row[column])}' for column in columns if column in row) + "}"


def json_of(cell: Cell) -> str:
    """A cell as JSON has it."""
    return cell.written if cell.kind == NUMBER else quoted(cell.written)


def quoted(text: str) -> str:
    """A string of JSON. Bytes that aren't UTF-8 become the sign that stands for them."""
    text = text.encode("latin-1").decode("utf-8", "replace")
    signs = [f"\\u{ord(sign):04x}" if sign < " " else f"\\{sign}" if sign in '"\\' else sign for sign in text]
    return '"' + "".join(signs).encode("utf-8").decode("latin-1") + '"'


def as_csv(tables: Tables, table: str) -> List[str]:
    """The table's lines with commas, the columns first."""
    columns = list(tables.columns[table])
    rows = [[row[column].written if column in row else "" for column in columns] for row in tables.rows[table]]
    return [",".join(map(cell_of, row)) for row in [columns, *rows]]


def cell_of(text: str) -> str:
    """A cell of CSV."""
    return '"' + text.replace('"', '""') + '"' if any(sign in text for sign in '",\r\n') else text


if __name__ == "__main__":
    sys.exit(main(sys.argv[1:]))
