"""Elements that stand on their own: refused ones by the number of their fault, events that are not used, and good events that
look as if they were neither, where PID stands for the number of a process and MOST for the greatest whole number of microseconds that
a time can have."""
from reading import MICROSECONDS, NANOSECONDS

# Those that are refused in either unit, but for times.
FAULTS = {
    11: ["5", "null", "true", '"B"', "[]", '[{"ph":"B","ts":1}]', "-0", "1e300"],
    12: ["{}", '{"ts":1}', '{"ph":null,"ts":1}', '{"ph":5,"ts":1}', '{"ph":["B"],"ts":1}', '{"ph":"B","ts":1,"ph":7}',
         '{"Ph":"B","ts":1}'],
    13: ['{"ph":"%s","dur":1,"id":1}' % phase for phase in "BEXbnestfCiI"] + ['{"ph":"X","dur":null,"pid":"x"}'],
    15: ['{"ph":"X","ts":1}', '{"ph":"X","ts":1,"pid":"x","Dur":1}'],
    16: ['{"ph":"B","ts":1,"%s":%s}' % field for field in [
        ("pid", '"1"'), ("pid", "null"), ("pid", "1.0"), ("pid", "9223372036854775808"), ("tid", "[]"), ("tid", "-0"),
        ("tid", "true"), ("name", "5"), ("name", "null"), ("cat", "{}"), ("cat", "null")]]
    + ['{"ph":"M","name":"process_name","pid":"x"}', '{"ph":"b","ts":1,"id":1,"scope":5}', '{"ph":"e","ts":1,"scope":null}']
    + ['{"ph":"%s","ts":1,%s}' % id_ for id_ in [
        ("b", '"id":null'), ("n", '"id":1.5'), ("e", '"id":-0'), ("s", '"id":true,"id2":{"local":1}'), ("t", '"id2":null'),
        ("f", '"id2":5'), ("C", '"id":[]'), ("C", '"id2":{}'), ("b", '"id2":{"Local":1}'), ("s", '"id2":{"local":1e3}'),
        ("s", '"id2":{"global":null,"local":1}'), ("b", '"id":9223372036854775808')]],
    17: ['{"ph":"%s","ts":1,"Id":1}' % phase for phase in "bnestf"],
    18: ['{"ph":"i","ts":1,"s":%s}' % reach for reach in ['"x"', "null", '""', '"gp"', "5", '"G"']],
    19: ['{"ph":"C","ts":1,"args":{"k":1,"l":%s}}' % value
         for value in ["0.5", '"1"', "null", "true", "[]", "{}", "-0", "9223372036854775808", "1e3"]],
}

# What neither unit takes as a time, and what one of them alone doesn't.
NO_TIMES = ['"5"', '"1.5"', "null", "true", "[1]", "{}", "9223372036854775808", "-9223372036854775809", "18446744073709551616", "1e300"]
NO_TIMES_IN = {
    MICROSECONDS: ["1.5", "1.0", "1e3", "-0", "9007199254740992", "-9007199254740992"],
    NANOSECONDS: ["4611686018427388", "-4611686018427388", "4611686018427387.9", "-4.611686018427388e15", "4611686018427387904", "-1e17"],
}
NO_LENGTHS = ["-1", "null", '"1"', "false", "[]"]
NO_LENGTHS_IN = {
    MICROSECONDS: ["0.5", "-0", "9007199254740992", "1e2"],
    NANOSECONDS: ["-0.001", "-0.00051", "-1e-3", "4611686018427388", "4611686018427387.5", "1e300"],
}


def faults_in(unit):
    """The refused elements by their numbers."""
    times, lengths = NO_TIMES + NO_TIMES_IN[unit], NO_LENGTHS + NO_LENGTHS_IN[unit]
    of_times = ['{"ph":"%s","ts":%s}' % (phase, time) for phase, time in zip("BEXbnestfCiI" * 2, times)]
    return FAULTS | {14: of_times + ['{"ph":"X","ts":1,"dur":%s}' % length for length in lengths]}


OTHERS = ['{"ph":"%s","ts":1.5,"pid":"x"}' % phase
          for phase in ["", "P", "N", "O", "D", "R", "c", "a", "V", "S", "T", "p", "F", "(", ")", "BB", "B ", "x", "é"]]

ODD_EVENTS = [
    '{"ph":5,"ph":"X","ts":"x","ts":7,"dur":3,"name":1,"name":"twice","pid":null,"pid":PID}',
    '{"ph":"\\u0058","t\\u0073":7,"dur":3,"name":"\\ud83d\\ude00","pid":PID}',
    '{"ph":"X","ts":MOST,"dur":MOST,"name":"far","pid":PID,"tid":-9223372036854775808}',
    '{"ph":"X","ts":-MOST,"dur":0,"name":"first","pid":PID,"tid":9223372036854775807}',
    '{"ph":"i","ts":1,"dur":"x","id":[],"id2":0,"scope":{},"name":"i","pid":PID,"args":[1]}',
    '{"ph":"M","ts":null,"s":5,"id":null,"name":"odd","pid":PID,"tid":77,"args":{"name":1,"sort_index":1.0}}',
    '{"ph":"C","ts":0,"name":"none","pid":PID,"args":{}}',
    '{"ph":"C","ts":0,"name":"none","pid":PID,"args":["k"]}',
    ' { "ph" : "i" , "ts" : 0 ,\t"name" : "blanks"\r\n, "pid" : PID } ',
    '{"ph":"X","ts":0,"dur":1,"pid":PID,"args":{"deep":' + "[" * 100 + "]" * 100 + "}}",
]

# Times and lengths that are good in nanoseconds alone.
ODD_TIMES = ["0.0005", "0.0015", "0.0025", "-0.0005", "1e-400", "-0", "-0.0", "0.5e-3", "1e15", "1.5E3", "1234.5670000001", "5e-324"]
ODD_TIMES += ["4611686018427387.4", "-4611686018427387", "8796093022207.999", "8796093022208.001", "123456789012.3455"]
ODD_TIMES += ["0.0625", "-0.0625", "-0.1875", "1234.3125", "8796093022207.9375"]
ODD_LENGTHS = ["-0", "-0.0", "-0.0004", "0.0005", "0.001", "1e3", "4611686018427387.0", "2.5e-3", "0.10000000000000001", "1e-7", "0.0625"]


def odd_events_in(unit):
    """The good events of a unit."""
    if unit == MICROSECONDS:
        return ODD_EVENTS
    times = [(time, "1") for time in ODD_TIMES] + [("1", length) for length in ODD_LENGTHS]
    return ODD_EVENTS + ['{"ph":"X","ts":%s,"dur":%s,"name":"odd","pid":PID}' % each for each in times]
