"""The man page of the program, made from its helps and from the fault lines of docs/formats.md."""
import re

FAULTS = '## What a fault line asks you to look for'
LINK = re.compile(r'\[([^]]*)\]\([^)]*\)')


def plain(text):
    """A text as roff has it."""
    text = text.replace('\\', r'\e').replace('-', r'\-').replace('`', r'\(ga')
    return r'\&' + text if text[:1] in ".'" else text


def bold(text):
    return f'.B {plain(text)}'


def of_block(block):
    if block.text:
        yield from ('.PP', plain(block.text))
    if block.items:
        for it in block.items:
            yield from ('.TP', bold(it.words), plain(it.meaning))
    elif block.lines:
        yield from ('.PP', '.nf', '.RS', *map(plain, block.lines), '.RE', '.fi')


def of_items(items):
    for it in items:
        yield from ('.TP', bold(it.words), plain(it.meaning))


def of_command(name, told):
    yield from (f'.SS {name}', bold(told.usage), '.PP', plain(told.purpose) + '.')
    yield from of_items([*told.arguments, *told.options])
    for block in told.after:
        yield from of_block(block)


def fault_lines(formats):
    """What each fault line asks to look for, by the table of formats.md."""
    table = formats.split(FAULTS)[1].split('\n## ')[0]
    rows = [line for line in table.splitlines() if line.startswith('| ')][1:]
    for row in rows:
        says, wanted = re.split(r'(?<!\\) \| ', row.removeprefix('| ').removesuffix(' |'))
        cells = [LINK.sub(r'\1', cell).replace(r'\|', '|') for cell in (says, wanted)]
        yield from ('.TP', bold(cells[0].replace('`', '')), plain(cells[1].replace('`', '')))


def page(version, whole, commands, formats):
    lines = [f'.TH PEBBLES 1 "" "{version}"', '.SH NAME', rf'pebbles \- {plain(whole.purpose[:1].lower() + whole.purpose[1:].rstrip("."))}',
             '.SH SYNOPSIS', bold(whole.usage), '.SH DESCRIPTION']
    for block in whole.about:
        lines += of_block(block)
    lines += ['.SH OPTIONS', *of_items(whole.options), '.SH COMMANDS']
    for name, told in commands.items():
        lines += of_command(name, told)
    for block in whole.after:
        title = block.text.rstrip(':').upper()
        block.text = ''
        lines += [f'.SH {title}', *of_block(block)]
    lines += ['.SH FAULT LINES', 'What a fault line asks you to look for:', *fault_lines(formats)]
    return '\n'.join(lines) + '\n'
