#!/usr/bin/env python3
"""Writes the manual pages and the shell completions of a release.

    python3 packaging/pages.py OUT PROGRAM HEADER..     OUT/share has them; SOURCE_DATE_EPOCH is the pages' date

rb_run(1) and the completions come from `PROGRAM --help` and the help of its subcommands. The page of a header in section
3 has the header's comments: its first one is the description, a comment `/* ---- TITLE */` begins a section, and each
other stands before its declaration. `man NAME` of each call finds its header's page. The file VERSION has the version."""
import os
import pathlib
import re
import subprocess
import sys
import textwrap
import time

TOP = pathlib.Path(__file__).resolve().parent.parent
VERSION = (TOP / 'VERSION').read_text().strip()
DATE = time.strftime('%Y-%m-%d', time.gmtime(int(os.environ.get('SOURCE_DATE_EPOCH', '0'))))
# what stands between backquotes, and names of calls, types and constants
NAMES = re.compile(r'`([^`]+)`|(?<![\w/.])((?:broker|changeset|gz|sqlite3)[a-z0-9]*_[a-z0-9_]+|'
                   r'(?:BROKER|CHANGESET|GZ)_[A-Z_]+)\b')


# ---- roff

def escaped(text):
    return text.replace('\\', '\\e').replace('-', '\\-').replace("'", '\\(aq').replace('`', '\\(ga')


def prose(text):
    """A paragraph, with names and what stands between backquotes in bold."""
    parts, at = [], 0
    for found in NAMES.finditer(text):
        parts += [text[at:found.start()], (found[1] or found[2],)]
        at = found.end()
    return ''.join(escaped(part) if isinstance(part, str) else f'\\fB{escaped(part[0])}\\fR' for part in parts + [text[at:]])


def line(text):
    """A line of text that no request can be taken for."""
    return '\\&' + text if text.startswith(('.', "'")) else text


def filled(text):
    """A paragraph in lines of roff."""
    lines = textwrap.wrap(prose(text), 78, break_long_words=False, break_on_hyphens=False)
    return '\n'.join(line(each) for each in lines)


def code(lines, indent=True):
    body = [line(escaped(each)) for each in lines]
    return (['.RS 4'] if indent else []) + ['.nf', *body, '.fi'] + (['.RE'] if indent else [])


def blocks(text):
    """Paragraphs, list items and code, of a comment's lines or of the end of a help text."""
    out, lines = [], text.split('\n')
    while lines:
        if not lines[0].strip():
            lines.pop(0)
        elif lines[0].startswith('  '):
            block = []
            while lines and (lines[0].startswith('  ') or not lines[0].strip()):
                block.append(lines.pop(0))
            while not block[-1].strip():
                block.pop()
            least = min(len(each) - len(each.lstrip()) for each in block if each.strip())
            out.append(('code', [each[least:] for each in block]))
        else:
            item = lines[0].startswith('- ')
            words = [lines.pop(0)]
            while lines and lines[0].strip() and not lines[0].startswith('- ') and (
                    lines[0].startswith('  ') if item else not lines[0].startswith('  ')):
                words.append(lines.pop(0).strip())
            text = ' '.join(words)
            out.append(('item', text[2:]) if item else ('prose', text))
    return out


def written(text, first='.PP'):
    """The roff of a text. Its first paragraph begins with the request `first`, or with none."""
    out = []
    for kind, what in blocks(text):
        if kind == 'code':
            out += ['.PP', *code(what)] if out and out[-1] != '.fi' else code(what)
        elif kind == 'item':
            out += ['.IP \\(bu 2', filled(what)]
        else:
            out += ([first] if first else []) + [filled(what)]
        first = '.PP'
    return out


def page(name, section, body):
    head = f'.TH {name.upper()} {section} "{DATE}" "gubzelk {VERSION}" "Gubzelk"\n.nh\n.ad l'
    return '\n'.join(['.\\" Made by packaging/pages.py.', head, *body]) + '\n'


# ---- headers

def comment_text(comment):
    """The text of a comment, without its marks."""
    lines = comment[2:-2].rstrip().split('\n')
    return '\n'.join([lines[0].strip()] + [re.sub(r'^ *\*? ?', '', each) for each in lines[1:]]).strip('\n')


TOKEN = re.compile(r'/\*.*?\*/|^[ \t]*#(?:\\\n|[^\n])*|"C" *\{|[{};]', re.M | re.S)


def items(text):
    """(comment, declaration) of each declaration and each constant, and (title, None) of each section. The first item is
    the header's first comment, with None."""
    found, comment, start, depth, skipped = [], None, 0, 0, 0
    for token in TOKEN.finditer(text):
        mark, declaration = token[0], text[start:token.end()].strip()
        if mark.lstrip().startswith('#'):
            words = mark.split()
            if words[0].startswith('#if'):
                skipped += not (words[0] == '#ifndef' and words[1].endswith('_H'))
            elif words[0] == '#endif':
                skipped -= skipped > 0
            elif words[0] == '#define' and len(words) > 2 and not skipped:
                found.append((comment, mark.strip()))
                comment = None
        elif skipped:
            pass
        elif mark.startswith('/*'):
            if depth:
                continue
            said = comment_text(mark)
            if not found:
                found.append((said, None))
            elif said.startswith('---- '):
                found.append((said[5:], None))
            else:
                comment = said
        elif mark == '{':
            depth += 1
            continue
        elif mark == '}':
            depth -= depth > 0
            if depth or text[token.end():].lstrip().startswith(';'):
                continue
        elif depth:
            continue
        elif declaration.rstrip(';').strip():
            found.append((comment, re.sub(r'\b[A-Z]+_(CALL|VOID|ALONE) ?', '', declaration)))
            comment = None
        start = token.end()
    return found


def members(declaration):
    """The (comment, members) of an enum or a struct, in their order."""
    body = declaration[declaration.index('{') + 1:declaration.rindex('}')]
    out, comment, at = [], None, 0
    for token in re.finditer(r'/\*.*?\*/|[^;,/]*?(?:=[^,;/]*)?[;,]|[^;,/]+$', body, re.S):
        text = ' '.join(token[0].split())
        if text.startswith('/*'):
            comment = comment_text(token[0])
        elif text.strip(',; '):
            if comment is None and out:
                out[-1][1].append(text)
            else:
                out.append((comment or '', [text]))
            comment = None
    return out


def wrapped(declaration):
    """A function's declaration in lines of at most 72 columns."""
    whole = re.sub(r'(?<!,) ', '\0', ' '.join(declaration.split()))
    lines = textwrap.wrap(whole, 72, subsequent_indent='    ', break_long_words=False, break_on_hyphens=False)
    return [each.replace('\0', ' ') for each in lines]


def joined(member):
    """The names of some members: an enum's without commas, a struct's as they are declared."""
    names = ' '.join(member)
    return names.strip(', ') if not names.endswith(';') else names


def header_page(path):
    text = path.read_text()
    (first, _), *rest = items(text)
    name = 'gubzelk' if path.stem == 'gubzelk' else path.stem
    # the text before the first empty line begins with the sentence of the page's name
    about, *more = re.split(r'(?<=\.)\s+', first.split('\n\n')[0].replace('\n', ' '), maxsplit=1)
    opening = '\n\n'.join([' '.join(more)] + first.split('\n\n')[1:])
    calls = [(re.search(r'(\w+)\(', what)[1], what) for _, what in rest
             if what and not what.startswith(('#', 'typedef')) and '{' not in what and '(' in what]
    package = {'broker': 'gubzelk-broker', 'changeset': 'gubzelk-changeset', 'gubzelk': 'gubzelk-keeper'}[name]
    body = ['.SH NAME', f'{name} \\- {prose(about[0].lower() + about[1:].rstrip("."))}', '.SH SYNOPSIS']
    body += code([f'#include <{path.name}>', '', *(each for _, what in calls for each in wrapped(what))], indent=False)
    body += ['.PP', *code([f'cc app.c $(pkg-config --cflags --libs {package}) -o app'], indent=False)]
    body += ['.SH DESCRIPTION', *written(opening, None)]
    sections = any(what is None for _, what in rest)
    if rest and rest[0][1] is not None:
        body.append('.SH ' + ('GENERAL' if sections else 'CONSTANTS AND CALLS'))
    for comment, what in rest:
        if what is None:
            title, _, said = comment.partition('\n') if ': ' not in comment and '. ' not in comment else (
                re.match(r'(.*?)[:.]\s(.*)', comment, re.S).group(0, 1, 2)[1], '', re.match(
                    r'(.*?)[:.]\s(.*)', comment, re.S)[2])
            body.append('.SH ' + escaped(' '.join(title.split()).upper().rstrip('.')))
            if said:
                body += written(said[0].upper() + said[1:], None)
            continue
        inner = members(what) if '{' in what else []
        title = what[:what.index('{')].strip() if any(said for said, _ in inner) else what
        shown = title.split('\n') if '{' in title or title.startswith('#') else wrapped(title)
        body += [] if body[-1].startswith('.SH') else ['.PP']
        body += ['.nf', '.ft B', *(line(escaped(each)) for each in shown), '.ft R', '.fi']
        body += ['.RS 4', *written(comment, None), '.RE'] if comment else []
        if title != what:
            body.append('.RS 4')
            for said, member in inner:
                body += ['.TP', f'.B {line(escaped(joined(member)))}']
                body += written(said, None) if said else ['\\&']
            body.append('.RE')
    others = [each for each in ('rb_run(1)', 'broker(3)', 'changeset(3)') if each != f'{name}(3)']
    body += ['.SH SEE ALSO'] + [f'.BR {each[:-3]} ({each[-2]}){"," if each is not others[-1] else ""}' for each in others]
    return name, page(name, 3, body), [call for call, _ in calls]


# ---- the program

class Help:
    """What a help text says: about, usage, subcommands or options as (words, text), and what comes after them."""

    def __init__(self, program, *words):
        lines = subprocess.run([program, *words, '--help'], check=True, stdout=subprocess.PIPE, text=True).stdout.split('\n')
        self.about = lines[0]
        self.usage = next((each[7:] for each in lines if each.startswith('Usage: ')), '')
        self.listed, last, end = {'Commands:': [], 'Options:': []}, None, 0
        for at, each in enumerate(lines):
            if each in self.listed:
                last, end = self.listed[each], at
            elif last is not None and at == end + 1 and each.startswith('  '):
                found = re.match(r' {2,6}(\S(?:\S| (?! ))*)(?: {2,}(.*))?$', each)
                if found:
                    last.append([found[1], found[2] or ''])
                else:
                    last[-1][1] += ' ' + each.strip()
                end = at
        self.after = '\n'.join(lines[end + 1:]).strip('\n')
        self.commands = [each for each in self.listed['Commands:'] if each[0] != 'help']
        self.options = self.listed['Options:']

    def longs(self):
        """(option, value's name or '', text) of each option."""
        for words, text in self.options:
            found = re.search(r'(--[a-z-]+)(?: <(\w+)>)?', words)
            yield found[1], found[2] or '', text


def after_blocks(text):
    """The end of a help text. A paragraph that ends with a colon has its list below it."""
    return written(re.sub(r'(?m)^(\S.*:)\n(?=  )', r'\1\n\n', text))


def program_page(name, top, subs):
    body = ['.SH NAME', f'{name} \\- {prose(top.about[0].lower() + top.about[1:])}', '.SH SYNOPSIS', '.nf']
    for command, said in subs.items():
        body.append(re.sub(r'\\fB\\fR', '', f'\\fB{escaped(said.usage)}\\fR'))
    body += [f'\\fB{name} \\-\\-help\\fR | \\fB\\-\\-version\\fR', '.fi', '.SH DESCRIPTION']
    body.append(filled(f'{top.about}. A command is one of these; each has a --help of its own.'))
    for command, text in top.commands:
        body += ['.TP', f'.B {escaped(command)}', filled(text + '.')]
    for command, said in subs.items():
        body += [f'.SH THE COMMAND {command.upper()}', filled(said.about + '.')]
        for words, text in said.options:
            body += ['.TP', f'.B {line(escaped(words))}', filled(text + '.')]
        body += after_blocks(said.after)
    body += ['.SH SEE ALSO', '.BR broker (3),', '.BR changeset (3)']
    return page(name, 1, body)


def bash(name, subs):
    cases = '\n'.join(f'''        {command})
            options='{" ".join(option for option, _, _ in said.longs())}' ;;''' for command, said in subs.items())
    files = '|'.join(sorted({option for said in subs.values() for option, value, _ in said.longs() if value == 'FILE'}))
    numbers = '|'.join(sorted({option for said in subs.values() for option, value, _ in said.longs() if value == 'N'}))
    return f'''# bash completion for {name}. Made by packaging/pages.py.
_{name}() {{
    local word=${{COMP_WORDS[COMP_CWORD]}} last=${{COMP_WORDS[COMP_CWORD - 1]}} options IFS=$'\\n'
    COMPREPLY=()
    case $last in
        {files}) compopt -o filenames; COMPREPLY=($(compgen -f -- "$word")); return ;;
        {numbers}) return ;;
    esac
    case ${{COMP_WORDS[1]}} in
{cases}
        *) options='{" ".join(subs)} --help --version' ;;
    esac
    [ "$COMP_CWORD" -gt 1 ] || options='{" ".join(subs)} --help --version'
    IFS=$' \\n'
    COMPREPLY=($(compgen -W "$options" -- "$word"))
}}
complete -F _{name} {name}
'''


def quoted(text):
    return text.replace("'", "'\\''")


def zsh(name, top, subs):
    def option(long, value, text):
        shown = quoted(text).replace('[', '\\[').replace(']', '\\]').replace(':', '\\:')
        kind = {'': '', 'FILE': ':file:_files', 'N': ':number:'}[value]
        return f"                '{long}[{shown}]{kind}'"
    commands = '\n'.join(f"        '{command}:{quoted(text)}'" for command, text in top.commands)
    cases = '\n'.join(f'            {command})\n                _arguments \\\n' + ' \\\n'.join(
        option(*each) for each in said.longs()) + ' ;;' for command, said in subs.items())
    return f'''#compdef {name}
# zsh completion for {name}. Made by packaging/pages.py.
_{name}() {{
    local context state line
    local -a commands
    commands=(
{commands}
    )
    _arguments -C '--help[Print help]' '--version[Print version]' '1:command:->command' '*::option:->option'
    case $state in
    command) _describe command commands ;;
    option)
        case $line[1] in
{cases}
        esac ;;
    esac
}}
_{name} "$@"
'''


def fish(name, top, subs):
    lines = [f'# fish completion for {name}. Made by packaging/pages.py.', f'complete -c {name} -f']
    def told(text):
        return text.replace('\\', '\\\\').replace("'", "\\'")
    lines += [f"complete -c {name} -n __fish_use_subcommand -a {command} -d '{told(text)}'" for command, text in top.commands]
    lines += [f"complete -c {name} -n __fish_use_subcommand -l help -d 'Print help'",
              f"complete -c {name} -n __fish_use_subcommand -l version -d 'Print version'"]
    for command, said in subs.items():
        for long, value, text in said.longs():
            kind = {'': '', 'FILE': ' -r -F', 'N': ' -x'}[value]
            lines.append(f"complete -c {name} -n '__fish_seen_subcommand_from {command}' -l {long[2:]}{kind} "
                         f"-d '{told(text)}'")
    return '\n'.join(lines) + '\n'


def main():
    if len(sys.argv) < 4:
        sys.exit('usage: python3 packaging/pages.py OUT PROGRAM HEADER..')
    share, program = pathlib.Path(sys.argv[1]) / 'share', os.path.abspath(sys.argv[2])
    name = 'rb_run'

    def write(path, text):
        (share / path).parent.mkdir(parents=True, exist_ok=True)
        (share / path).write_text(text)

    top = Help(program)
    subs = {command: Help(program, command) for command, _ in top.commands}
    if not subs or not all(said.options for said in subs.values()):
        sys.exit('pages.py: the help names no commands, or a command has no options')
    write(f'man/man1/{name}.1', program_page(name, top, subs))
    write(f'bash-completion/completions/{name}', bash(name, subs))
    write(f'zsh/site-functions/_{name}', zsh(name, top, subs))
    write(f'fish/vendor_completions.d/{name}.fish', fish(name, top, subs))
    for path in sys.argv[3:]:
        title, text, calls = header_page(pathlib.Path(path))
        write(f'man/man3/{title}.3', text)
        for call in calls:
            if call != title:
                write(f'man/man3/{call}.3', f'.so man3/{title}.3\n')


if __name__ == '__main__':
    main()
