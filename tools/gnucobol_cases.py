#!/usr/bin/env python3
"""Writes the programs of examples/gnucobol, and what they print as GnuCOBOL compiles them.

    tools/gnucobol_cases.py FOLDER      needs cobc

Each program takes all pairs of some senders and receivers and shows the bytes of each result, so a
line is a case. The cases are those on which the rules of docs/MEANING.md and GnuCOBOL agree; those
left out stand in docs/MEANING.md."""
import os
import re
import subprocess
import sys

HEAD = """       IDENTIFICATION DIVISION.
       PROGRAM-ID. {name}.
       DATA DIVISION.
       WORKING-STORAGE SECTION.
"""


class Program:
    """A program of one paragraph, and its cases."""

    def __init__(self, name):
        self.name = name
        self.data = []
        self.code = []
        self.cases = 0

    def number(self, name, picture, value=None, sign=None):
        """A number, with its bytes as the text NAME-X."""
        length = re.sub(r'9\((\d+)\)', lambda it: '9' * int(it[1]), picture).count('9')
        if sign and 'SEPARATE' in sign:
            length += 1
        clauses = [name, 'PIC ' + picture]
        if sign:
            clauses.append('SIGN ' + sign)
        if value is not None:
            clauses.append('VALUE ' + value)
        self.data.append('01 ' + ' '.join(clauses) + '.')
        self.data.append('01 %s-X REDEFINES %s PIC X(%d).' % (name, name, length))

    def text(self, name, picture, value=None):
        self.data.append('01 %s PIC %s%s.' % (name, picture, '' if value is None else ' VALUE ' + value))

    def group(self, name, parts):
        self.data.append('01 %s.' % name)
        self.data += ['    05 %s.' % part for part in parts]

    def case(self, statements, shown):
        """The statements, and then a line with what is shown."""
        self.cases += 1
        self.code += statements
        self.code.append('DISPLAY "%03d [" %s "]"' % (self.cases, shown))

    def asked(self, conditions):
        """A line with Y or N for each condition."""
        self.cases += 1
        for condition in conditions:
            self.code += ['IF ' + condition, '    DISPLAY "Y" NO ADVANCING', 'ELSE DISPLAY "N" NO ADVANCING.']
        self.code.append('DISPLAY " %03d".' % self.cases)

    def lines(self):
        out = [HEAD.format(name=self.name)]
        out += ['       %s\n' % line for line in self.data]
        out.append('       PROCEDURE DIVISION.\n       CASES.\n')
        out += ['           %s\n' % line for line in self.code]
        out.append('           STOP RUN.\n')
        assert all(len(line.rstrip('\n')) <= 72 for part in out for line in part.split('\n')), self.name
        return ''.join(out)


NUMBERS = [('A1', '9', '7', None), ('A2', '9(5)', '12345', None), ('A3', '9(3)V99', '123.45', None),
           ('A4', 'S9(4)', '-1234', None), ('A5', 'S9(2)V9(3)', '-12.345', None), ('A6', 'V9(4)', '0.9876', None),
           ('A7', 'S9(3)', '-120', 'LEADING SEPARATE'), ('A8', 'S9(2)V9', '+98.7', 'TRAILING SEPARATE'),
           ('A9', 'S9(9)V9(9)', '-123456789.987654321', None), ('A10', '9(18)', '998877665544332211', None)]
RECEIVERS = [('R1', '9', None), ('R2', '9(4)', None), ('R3', '9(2)V9', None), ('R4', 'S9(3)', None),
             ('R5', 'S9(2)V9(2)', None), ('R6', 'V9(3)', None), ('R7', 'S9(4)V9', 'LEADING SEPARATE'),
             ('R8', 'S9(2)', 'TRAILING SEPARATE')]
# cut to a zero, to which GnuCOBOL gives the sign of what was cut
SIGNED_ZEROS = {('-0.05', 'R4'), ('-0.05', 'R7'), ('-0.05', 'R8'), ('MULTIPLY {a} BY {r}', 'A4', 'R4')}
LITERALS = ['0', '7', '-7', '+123.456', '-0.05', '99999', '.5']


def move_numbers():
    program = Program('MOVE-NUMBERS')
    for name, picture, value, sign in NUMBERS:
        program.number(name, picture, value, sign)
    for name, picture, sign in RECEIVERS:
        program.number(name, picture, '0', sign)
    for sender in [name for name, *_ in NUMBERS] + LITERALS + ['ZERO']:
        for name, *_ in RECEIVERS:
            if (sender, name) in SIGNED_ZEROS:
                continue
            program.case(['MOVE %s TO %s' % (sender, name)], name + '-X')
    return program


def move_texts():
    program = Program('MOVE-TEXTS')
    program.text('T1', 'X(5)', '"AbC-9"')
    program.text('T2', 'X(2)', '"ZZ"')
    program.text('T3', 'A(4)', '"Name"')
    program.text('T4', 'X(6)', '"001234"')
    program.number('N1', '9(4)', '1234')
    program.number('N2', 'S9(3)', '-120')
    program.number('N3', 'S9(2)', '-45', 'LEADING SEPARATE')
    program.group('G1', ['G1-A PIC X(2) VALUE "GA"', 'G1-N PIC 9(3) VALUE 42'])
    program.text('R1', 'X')
    program.text('R2', 'X(4)')
    program.text('R3', 'X(8)')
    program.text('R4', 'A(6)')
    program.group('R5', ['R5-A PIC X(3)', 'R5-N PIC 9(3)'])
    program.number('D1', '9(3)', '0')
    program.number('D2', '9(4)V99', '0')
    program.number('D3', 'S9(6)', '0')
    texts = ['T1', 'T2', 'T3', 'T4', 'G1', '"A literal"', '"7"', 'SPACES', 'HIGH-VALUES', 'QUOTES']
    for sender in texts + ['N1', 'N2', 'N3', 'ZEROS']:
        for name in ['R1', 'R2', 'R3', 'R4', 'R5']:
            # GnuCOBOL moves no number to an alphabetic item
            if name == 'R4' and sender in ('N1', 'N2', 'N3', 'ZEROS'):
                continue
            statements = ['MOVE %s TO %s' % (sender, name)]
            if sender == 'HIGH-VALUES':
                statements += ['IF %s = HIGH-VALUES' % name, '    MOVE "H" TO ' + name, 'END-IF']
            program.case(statements, name)
    for sender in ['T4', '"0042"', '"123"']:
        for name in ['D1', 'D2', 'D3']:
            program.case(['MOVE %s TO %s' % (sender, name)], name + '-X')
    for name in ['T1 (2 : 3)', 'T1 (4 :)', 'T4 (3 : 2)']:
        program.case(['MOVE %s TO R3' % name], 'R3')
        program.case(['MOVE "********" TO R3', 'MOVE %s TO R3 (3 : 4)' % name], 'R3')
    return program


SUMS = [('A1', '9', '7', None), ('A2', '9(4)', '9876', None), ('A3', '9(2)V99', '12.35', None),
        ('A4', 'S9(3)', '-250', None), ('A5', 'S9V9(4)', '-1.2345', None)]
TOTALS = [('R1', '9(2)', '50', None), ('R2', 'S9(3)V9', '-100.5', None), ('R3', '9(5)V99', '99990.25', None),
          ('R4', 'S9(2)', '10', 'LEADING SEPARATE')]


def sums(name, verbs, operands, totals):
    """Each verb with each operand, into each total, as it is, ROUNDED, and with a SIZE phrase."""
    program = Program(name)
    for item, picture, value, sign in operands:
        program.number(item, picture, value, sign)
    for item, picture, value, sign in totals:
        program.number(item, picture, value, sign)
    program.text('SIZE-X', 'X')
    for verb in verbs:
        for operand, *_ in operands:
            for total, _, value, _ in totals:
                if (verb, operand, total) in SIGNED_ZEROS:
                    continue
                reset = 'MOVE %s TO %s' % (value, total)
                program.case([reset, verb.format(a=operand, r=total)], total + '-X')
                program.case([reset, verb.format(a=operand, r=total + ' ROUNDED'),
                              '    ON SIZE ERROR MOVE "E" TO SIZE-X', '    NOT ON SIZE ERROR MOVE "-" TO SIZE-X',
                              'END-' + verb.split()[0]], '%s-X SIZE-X' % total)
    return program


def compute():
    program = Program('COMPUTE-SUMS')
    for item, picture, value, sign in SUMS:
        program.number(item, picture, value, sign)
    for item, picture, value, sign in TOTALS:
        program.number(item, picture, value, sign)
    program.text('SIZE-X', 'X')
    for expression in ['A1 + A2 * A1', '(A1 + A2) * A1', 'A4 - A5', '- A4 + A3', 'A3 * A3', 'A5 * A5 * A5', 'A2 / A1',
                       'A4 / 7 + 1', 'A3 / A5', '(A1 - 10) * -2.5', 'A1 / 4 * 4', '1 / 3', 'A4 / A1 / A1', '100 - A2']:
        for total, *_ in TOTALS:
            program.case(['MOVE 0 TO ' + total, 'COMPUTE %s = %s' % (total, expression)], total + '-X')
            program.case(['MOVE 0 TO ' + total, 'COMPUTE %s ROUNDED = %s' % (total, expression),
                          '    ON SIZE ERROR MOVE "E" TO SIZE-X', '    NOT ON SIZE ERROR MOVE "-" TO SIZE-X',
                          'END-COMPUTE'], '%s-X SIZE-X' % total)
    return program


MASKS = ['ZZ9', 'Z(5)', 'ZZ,ZZ9.99', 'Z(4).ZZ', '$$,$$9.99', '$(6).99CR', '$ZZZ9.9', '+(4)9', '--,--9.99', '-9(4).9',
         'Z(3)9V99-', '*(4)9.9', '**,***.**', '99/99/99', '9B99B999', 'ZZ9,000', '9(4)V9(2)DB']


def edited():
    program = Program('MOVE-EDITED')
    for name, picture, value, sign in NUMBERS:
        program.number(name, picture, value, sign)
    program.text('T1', 'X(4)', '"0042"')
    for number, mask in enumerate(MASKS, 1):
        program.text('E%d' % number, mask)
    for sender in [name for name, *_ in NUMBERS] + LITERALS + ['ZERO', 'T1']:
        for number, _ in enumerate(MASKS, 1):
            program.case(['MOVE %s TO E%d' % (sender, number)], 'E%d' % number)
    for statement in ['ADD A3 A5 GIVING {e}', 'SUBTRACT 200 FROM A3 GIVING {e} ROUNDED', 'MULTIPLY A3 BY A5 GIVING {e} ROUNDED',
                      'DIVIDE A3 BY 7 GIVING {e}', 'COMPUTE {e} ROUNDED = A3 / 3 + A6']:
        for number, _ in enumerate(MASKS, 1):
            program.case([statement.format(e='E%d' % number)], 'E%d' % number)
    return program


STORED = [('B1', 'S9(4) BINARY'), ('B2', '9(5)V99 COMP'), ('B3', 'S9(12)V9(6) BINARY'), ('P1', 'S9(3) COMP-3'),
          ('P2', '9(4)V9 PACKED-DECIMAL'), ('P3', 'S9(9)V9(9) COMP-3'), ('P4', 'V9(4) COMP-3')]
# where GnuCOBOL cuts 18 digits to a binary item otherwise, and gives a zero the sign of what was cut
STORED_OTHERWISE = {('A10', 'B2'), ('A10', 'B3'), ('-0.05', 'P1')}


def usages():
    """Numbers to binary and packed items and on, sums of these, and comparisons."""
    program = Program('USAGES')
    for name, picture, value, sign in NUMBERS:
        program.number(name, picture, value, sign)
    for name, picture in STORED:
        program.text(name, picture, '0')
    program.number('D1', 'S9(9)V9(9)', '0', 'LEADING SEPARATE')
    program.text('SIZE-X', 'X')
    for sender in [name for name, *_ in NUMBERS] + LITERALS + ['ZERO']:
        for name, _ in STORED:
            if (sender, name) in STORED_OTHERWISE:
                continue
            program.case(['MOVE %s TO %s' % (sender, name), 'MOVE %s TO D1' % name], 'D1-X')
    for statement in ['ADD A3 TO {r}', 'SUBTRACT A5 FROM {r}', 'MULTIPLY -3 BY {r}', 'DIVIDE A1 INTO {r}',
                      'ADD {r} A4 GIVING {r} ROUNDED', 'COMPUTE {r} ROUNDED = {r} * A6 - A8']:
        for name, _ in STORED:
            verb = statement.split()[0]
            program.case(['MOVE 98.7 TO ' + name, statement.format(r=name), '    ON SIZE ERROR MOVE "E" TO SIZE-X',
                          '    NOT ON SIZE ERROR MOVE "-" TO SIZE-X', 'END-' + verb, 'MOVE %s TO D1' % name], 'D1-X SIZE-X')
    for left, _ in STORED:
        for right in ['B1', 'B3', 'P1', 'P3', 'A3', 'A5', '7', '98.7', 'ZERO']:
            if left != right:
                program.asked(['%s %s %s' % (left, relation, right) for relation in RELATIONS])
    return program


RELATIONS = ['=', '<', 'NOT >']


def compare_numbers():
    program = Program('COMPARE-NUMBERS')
    for item, picture, value, sign in NUMBERS:
        program.number(item, picture, value, sign)
    program.number('B1', 'S9(6)V9(3)', '-12.345')
    program.number('B2', '9(2)V9', '98.7')
    program.number('B3', 'S9(3)', '-0')
    for left in ['A1', 'A3', 'A4', 'A5', 'A7', 'A8', 'A9', 'B3']:
        for right in ['B1', 'B2', 'B3', '7', '-9', 'ZERO', 'A1 + A4']:
            program.asked(['%s %s %s' % (left, relation, right) for relation in RELATIONS])
    for item in ['A1', 'A4', 'A5', 'A8', 'B3', 'A1 - 7', 'A4 + A7']:
        program.asked(['%s IS %s' % (item, sign) for sign in ['POSITIVE', 'NEGATIVE', 'ZERO', 'NOT ZERO']])
    return program


def compare_texts():
    program = Program('COMPARE-TEXTS')
    program.text('T1', 'X(5)', '"ABC"')
    program.text('T2', 'X(3)', '"ABC"')
    program.text('T3', 'A(4)', '"abcd"')
    program.text('T4', 'X(4)', '"0123"')
    program.text('T5', 'X(3)', 'SPACES')
    program.text('T6', 'X(2)', 'HIGH-VALUES')
    program.number('N1', '9(4)', '123')
    program.group('G1', ['G1-A PIC X(2) VALUE "AB"', 'G1-N PIC 9(3) VALUE 42'])
    for left in ['T1', 'T2', 'T3', 'T4', 'T5', 'T6', 'G1', 'N1']:
        for right in ['T2', 'T4', 'G1', '"ABC "', '"0123"', 'SPACES', 'ZEROS', 'HIGH-VALUES', 'T1 (1 : 3)']:
            if left == right or left == 'N1' and right in ('SPACES', 'HIGH-VALUES'):
                continue
            program.asked(['%s %s %s' % (left, relation, right) for relation in RELATIONS])
    for item in ['T1', 'T3', 'T4', 'T5', 'G1-A', 'G1-N', 'N1']:
        kinds = ['NUMERIC'] * (item != 'T3') + ['ALPHABETIC'] * (item not in ('G1-N', 'N1'))
        program.asked(['%s IS %s' % (item, kind) for kind in kinds])
    return program


def main():
    folder = sys.argv[1]
    programs = {
        'move-numbers': move_numbers(), 'move-texts': move_texts(),
        'add-subtract': sums('ADD-SUBTRACT', ['ADD {a} TO {r}', 'SUBTRACT {a} FROM {r}', 'ADD {a} 1.05 GIVING {r}',
                                              'SUBTRACT {a} FROM 9.5 GIVING {r}'], SUMS, TOTALS),
        'multiply-divide': sums('MULTIPLY-DIVIDE', ['MULTIPLY {a} BY {r}', 'DIVIDE {a} INTO {r}',
                                                    'MULTIPLY {a} BY 3.14 GIVING {r}', 'DIVIDE {a} BY 3 GIVING {r}'],
                                SUMS, TOTALS),
        'move-edited': edited(), 'usages': usages(), 'compute-sums': compute(), 'compare-numbers': compare_numbers(), 'compare-texts': compare_texts()}
    for name, program in programs.items():
        source = os.path.join(folder, name + '.cob')
        with open(source, 'w') as file:
            file.write(program.lines())
        built = os.path.join('/tmp', 'gnucobol-' + name)
        subprocess.run(['cobc', '-x', '-std=default', '-o', built, source], check=True)
        with open(os.path.join(folder, name + '.out'), 'wb') as file:
            subprocess.run([built], stdout=file, check=True)
        os.remove(built)


if __name__ == '__main__':
    main()
