"""Manual pages: the desk's, made of tables of the documents; and those of commands that print their own help."""
import pathlib
import re
from typing import Optional

from documents import codes_in, failures, lines_of_the_program, plain, rows_of

NAME = "the planning desk of one UAS service supplier"
DESCRIPTION = """
The desk answers drone operators over HTTP: they plan, activate, change, show and close flights, and a flight that would
lie where another of a higher priority is planned, or of the same one unless that is permitted, is refused. The first
argument is the command. /usr/share/doc/uss-desk/docs has the API (api.md), and the pages for the administrator of a
desk (install.md, operate.md, backup-restore.md, ..).
"""
STATUSES = """
0 if all was done. After a failure the last line on standard error is "uss_desk: CODE". The command exits with 2 if an
argument or option is wrong; with 3 if the input is wrong: that of play or replay, the file of --operators, or what
token or cover was given; and with 4 if the machine refused memory, the disk, a port or the clock.
"""
FILES = (
    ("/var/lib/uss_desk/desk.db", "operators and plans of the desk that uss_desk.service runs, with desk.db-wal"),
    ("/var/lib/uss_desk/PORT/desk.db", "those of uss_desk@PORT.service"),
    ("/etc/default/uss_desk, /etc/default/uss_desk-PORT", "further options of these desks"),
    ("/etc/uss_desk/nginx.conf", "the proxy before the desk, which uss_desk_proxy.service runs"),
    ("/etc/uss_desk/operators.htpasswd", "operators' names and passwords"),
    ("/var/log/uss_desk_proxy/access.log", "a line for each request"),
)


def escaped(text: str) -> str:
    """A text as roff takes it."""
    text = text.replace("\\", "\\e").replace("-", "\\-").replace("'", "\\(aq")
    return re.sub(r"^\.", r"\\&.", text, flags=re.MULTILINE)


def marked(text: str) -> str:
    """A text of a document: what is between backquotes is bold, and where to read more is left out."""
    parts = plain(re.sub(r"\s*\(\[[^\]]*\]\([^)\s]*\)\)", "", text)).split("`")
    return "".join(f"\\fB{escaped(part)}\\fR" if at % 2 else escaped(part) for at, part in enumerate(parts))


def bold(text: str) -> str:
    return f"\\fB{escaped(text)}\\fR"


def tagged(tag: str, text: str) -> str:
    """A paragraph under a tag."""
    return f".TP\n{tag}\n{text}\n"


def desk_page(top: pathlib.Path, version: str) -> str:
    """uss_desk(1): its commands, their options and its error codes are those of the documents."""
    parts = [
        f'.TH USS_DESK 1 "" "uss_desk {version}" "The planning desk"\n',
        f".SH NAME\nuss_desk \\- {NAME}\n",
        ".SH SYNOPSIS\n",
    ]
    lines = lines_of_the_program(top)
    parts += [f"{bold('uss_desk ' + line)} {escaped(' '.join(words))}\n.br\n" for line, words, _ in lines]
    parts.append(f".SH DESCRIPTION\n{escaped(DESCRIPTION.strip())}\n.SH COMMANDS\n")
    for what, does in rows_of(top / "docs" / "operate.md", ["command", "what it does"]):
        parts.append(tagged(", ".join(bold(words) for words in codes_in(what)), marked(does)))
    parts.append(".SH OPTIONS\n")
    parts += [tagged(f"{bold(line)} {escaped(' '.join(words))}", marked(what)) for line, words, what in lines]
    parts.append(f".SH EXIT STATUS\n{escaped(STATUSES.strip())}\n.SH DIAGNOSTICS\n")
    for word, status, happened, to_do in failures(top):
        done = f"\n.br\nWhat to do: {marked(to_do)}" if to_do else ""
        parts.append(tagged(f"{marked(word)} ({status})", f"{marked(happened)}{done}"))
    parts.append(".SH FILES\n")
    parts += [tagged(bold(name), escaped(what)) for name, what in FILES]
    parts.append(".SH SEE ALSO\n\\fBplanned_now\\fR(1), \\fBdesk_metrics\\fR(1), /usr/share/doc/uss\\-desk\n")
    return "".join(parts)


def page_of_help(name: str, told: str, purpose: Optional[str] = None) -> str:
    """A page of what a command prints as its help; its purpose is the help's first sentence unless it is given."""
    usage, _, rest = told.partition("\n\n")
    purpose = purpose or re.split(r"[.:]\s", rest.strip(), maxsplit=1)[0].replace("\n", " ")
    synopsis = re.sub(r"\s+", " ", usage.partition("usage: ")[2])
    return (
        f'.TH {name.upper()} 1 "" "" "The planning desk"\n.SH NAME\n{name} \\- {escaped(purpose)}\n'
        f".SH SYNOPSIS\n{escaped(synopsis)}\n.SH DESCRIPTION\n.nf\n{escaped(rest.rstrip())}\n.fi\n"
    )
