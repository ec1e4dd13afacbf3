"""The words of Instruction List and the fields of a meter, as the profile has them."""
LOADS, STORES = {'LD', 'LDN'}, {'ST', 'STN', 'S', 'R'}
COMBINES = {'AND', 'OR', 'XOR', 'ANDN', 'ORN', 'XORN', 'ADD', 'SUB', 'MUL', 'DIV', 'MOD', 'GT',
            'GE', 'EQ', 'NE', 'LE', 'LT', '&', '&N'}
JUMPS, RETURNS = {'JMP', 'JMPC', 'JMPCN'}, {'RET', 'RETC', 'RETCN'}
CONVERTS = {'INT_TO_DINT': ('INT', 'DINT'), 'DINT_TO_LINT': ('DINT', 'LINT')}
ALONE = {'NOT', *CONVERTS, *RETURNS}
OPERATORS = LOADS | STORES | COMBINES | JUMPS | ALONE | {'CAL'}
FRAME = {'PROGRAM', 'END_PROGRAM', 'VAR', 'VAR_EXTERNAL', 'END_VAR'}
NUMBERS = {'INT': 16, 'DINT': 32, 'LINT': 64}
TYPES, TIMERS = {'BOOL', 'TIME', *NUMBERS}, {'TON', 'TOF'}
RESERVED = (OPERATORS - {'&', '&N'}) | FRAME | TYPES | TIMERS | {'TRUE', 'FALSE'}
FIELDS = ('TOTW', 'TOTVAR', 'HZ', 'AA', 'AB', 'AC')
