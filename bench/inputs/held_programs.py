"""Makers of parts of programs, for `held_more.py`."""
from .pieces import DIGITS, some
from .vocabularies import RUSSIAN, camel, number, snake, word, words


def onec_value(rng, depth):
    kind = rng.randrange(10 if depth else 6)
    if kind < 3:
        return camel(rng, 2, RUSSIAN)
    if kind < 4:
        return rng.choice([number(rng), f"{number(rng)}.{number(rng, 2)}", "Истина", "Ложь", "Неопределено", f"'20{number(rng, 1)}{some(rng, '12', 5, 5)}'"])
    if kind < 6:
        return rng.choice([f'"{words(rng, 1, 8, RUSSIAN)}"', f"{camel(rng, 2, RUSSIAN)}.{camel(rng, 3, RUSSIAN)}", f'"{word(rng)} ""{word(rng, RUSSIAN)}"" "'])
    if kind < 8:
        return f"{camel(rng, 3, RUSSIAN)}({', '.join(onec_value(rng, depth - 1) for _ in range(rng.randrange(4)))})"
    return f"{onec_value(rng, depth - 1)} {rng.choice(['+', '-', '=', '<>', '>=', '*', 'И', 'или'])} {onec_value(rng, depth - 1)}"


def onec_statement(rng, indent):
    tabs, kind, more = "\t" * indent, rng.randrange(10), indent < 4
    if kind == 0:
        return f"{tabs}// {words(rng, 3, 12, RUSSIAN)}\n"
    if kind == 1 and more:
        return f"{tabs}Если {onec_value(rng, 2)} Тогда\n{onec_body(rng, indent + 1)}{tabs}Иначе\n{onec_body(rng, indent + 1)}{tabs}КонецЕсли;\n"
    if kind == 2 and more:
        return f"{tabs}Для Каждого {camel(rng, 2, RUSSIAN)} Из {onec_value(rng, 1)} Цикл\n{onec_body(rng, indent + 1)}{tabs}КонецЦикла;\n"
    if kind == 3:
        return f"{tabs}{rng.choice(['Возврат', 'возврат'])} {onec_value(rng, 2)};\n"
    return f"{tabs}{camel(rng, 2, RUSSIAN)}{rng.choice(['', f'.{camel(rng, 2, RUSSIAN)}', '[0]'])} = {rng.choice(['', '', 'Новый ', 'Не '])}{onec_value(rng, 3)};\n"


def onec_body(rng, indent):
    return "".join(onec_statement(rng, indent) for _ in range(rng.randint(1, 4)))


def onec(rng):
    kind = rng.choice(["Процедур", "Функци"])
    end, ends = ("а", "ы") if kind[0] == "П" else ("я", "и")
    named = ", ".join(camel(rng, 2, RUSSIAN) for _ in range(rng.randrange(4)))
    return f"&НаСервере\n{kind}{end} {camel(rng, 3, RUSSIAN)}({named})\n\tПерем {camel(rng, 1, RUSSIAN)};\n{onec_body(rng, 1)}{onec_body(rng, 1)}Конец{kind}{ends}\n\n"


def verilog_value(rng, depth):
    kind = rng.randrange(11 if depth else 7)
    if kind < 4:
        return snake(rng) + rng.choice(["", "", f"[{number(rng, 2)}]", f"[{number(rng, 2)}:0]"])
    if kind < 6:
        size = rng.choice([1, 4, 8, 16, 32])
        return rng.choice([f"{size}'h{rng.randrange(1 << size):x}", f"{size}'b{some(rng, '01', 1, 8)}", f"{size}'d{number(rng, 3)}", number(rng, 2)])
    if kind < 7:
        return f"{{{', '.join(snake(rng) for _ in range(rng.randint(2, 4)))}}}"
    if kind < 8:
        return f"{rng.choice('!~&|^')}{snake(rng)}"
    sign = rng.choice("+ - & | ^ == != && || << >> < >=".split())
    return rng.choice(["({} {} {})", "{} {} {}"]).format(verilog_value(rng, depth - 1), sign, verilog_value(rng, depth - 1))


def verilog_line(rng, indent):
    blanks, kind = "  " * indent, rng.randrange(10)
    if kind < 2 and indent < 4:
        body = "".join(verilog_line(rng, indent + 1) for _ in range(rng.randint(1, 3)))
        other = f"{blanks}end else begin\n{verilog_line(rng, indent + 1)}" if rng.randrange(2) else ""
        return f"{blanks}if ({verilog_value(rng, 2)}) begin\n{body}{other}{blanks}end\n"
    if kind < 3 and indent < 4:
        cases = "".join(f"{blanks}  4'd{n}: {snake(rng)} <= {verilog_value(rng, 1)};\n" for n in range(rng.randint(2, 6)))
        return f"{blanks}case ({snake(rng)})\n{cases}{blanks}  default: ;\n{blanks}endcase\n"
    if kind < 4:
        return rng.choice([f"{blanks}// {words(rng, 2, 10)}\n", f'{blanks}$display("{words(rng, 1, 5)} %h\\n", {snake(rng)});\n'])
    return f"{blanks}{snake(rng)} <= {verilog_value(rng, 2)};" + rng.choice(["\n", "\n", f"  // {words(rng, 1, 5)}\n"])


def verilog(rng):
    ports = ",\n".join(f"  {rng.choice(['input', 'input', 'output', 'output reg'])} {rng.choice(['', '[7:0] ', '[WIDTH-1:0] '])}{snake(rng)}" for _ in range(rng.randint(2, 8)))
    wires = "".join(f"  {rng.choice(['wire', 'reg'])} [{number(rng, 2)}:0] {snake(rng)};\n" for _ in range(rng.randrange(6)))
    assigns = "".join(f"  assign {snake(rng)} = {verilog_value(rng, 3)};\n" for _ in range(rng.randrange(5)))
    blocks = "".join(f"\n  always @({rng.choice(['posedge clk', 'posedge clk or negedge rst_n', '*'])}) begin\n{''.join(verilog_line(rng, 2) for _ in range(rng.randint(2, 7)))}  end\n" for _ in range(rng.randint(1, 3)))
    unit = f"  {snake(rng)} #(.WIDTH({number(rng, 2)})) u_{word(rng)} (.{word(rng)}({snake(rng)}), .clk(clk));\n" * rng.randrange(2)
    return f"/* {words(rng, 5, 40)} */\n`timescale 1ns / 1ps\nmodule {snake(rng)} #(parameter WIDTH = {number(rng, 2)}) (\n{ports}\n);\n{wires}{assigns}{unit}{blocks}endmodule\n\n"


def gcode_move(rng):
    kind, at = rng.randrange(20), f"X{rng.uniform(0, 220):.3f} Y{rng.uniform(0, 220):.3f}"
    if kind < 13:
        return f"G1 {at} E{rng.uniform(0, 3):.5f}"
    if kind < 15:
        return f"G0 F{rng.choice(['7200', '9000', '4200.5'])} {at}"
    if kind < 17:
        return f"G{rng.choice('23')} {at} I{rng.uniform(-20, 20):.3f} J{rng.uniform(-20, 20):.3f} E{rng.uniform(0, 1):.4f}"
    if kind < 18:
        return rng.choice([f"M106 S{rng.randrange(256)}", f"M104 S{rng.randrange(180, 240)}", "M107", f"G4 P{number(rng, 3)}", "G92 E0", "M82", "T1"])
    return rng.choice([f"G1 F{rng.randrange(600, 9000)} E-{rng.uniform(0, 5):.2f}", f"G0 Z{rng.uniform(0, 99):.2f}", f"G1 X-{rng.uniform(0, 9):.1f} F{rng.randrange(600, 9000)}"])


def gcode(rng):
    """A layer, or a numbered part."""
    moves = [gcode_move(rng) for _ in range(rng.randint(10, 90))]
    if rng.randrange(8) == 0:
        moves = [f"N{n} {move}*{rng.randrange(256)}" for n, move in enumerate(moves, rng.randrange(5000))]
    moves = [move + (f" ; {words(rng, 1, 5)}" if rng.randrange(25) == 0 else "") for move in moves]
    head = rng.choice([f";LAYER:{number(rng)}\n;TYPE:{word(rng).upper()}", f"({words(rng, 2, 7)})", f"; {words(rng, 3, 12)}\nG28 X Y"])
    return head + "\n" + "\n".join(moves) + "\n"


def erlang_value(rng, depth):
    kind = rng.randrange(14 if depth else 7)
    if kind < 3:
        return camel(rng, 2)
    if kind < 5:
        return rng.choice([snake(rng, 2), "ok", "error", "undefined", f"'{camel(rng, 2)}.{word(rng)}'"])
    if kind < 7:
        return rng.choice([number(rng, 3), number(rng, 1), f'"{words(rng, 1, 7)}"', f"16#{rng.randrange(1 << 16):x}", f"{number(rng, 2)}.{number(rng, 2)}", f"${word(rng)[0]}", f"?{word(rng).upper()}", f'<<"{word(rng)}">>'])
    inner = lambda: ", ".join(erlang_value(rng, depth - 1) for _ in range(rng.randint(1, 3)))
    if kind < 9:
        return f"{{{inner()}}}"
    if kind < 10:
        return rng.choice([f"[{inner()}]", f"[{camel(rng, 1)} | {camel(rng, 1)}]", f"[{erlang_value(rng, depth - 1)} || {camel(rng, 1)} <- {camel(rng, 1)}]", "[]"])
    if kind < 12:
        return rng.choice(["{}({})", "{}:" + word(rng) + "({})"]).format(word(rng), inner())
    sign = rng.choice("+ - * ++ =:= == >= div rem andalso".split())
    return f"{erlang_value(rng, depth - 1)} {sign} {erlang_value(rng, depth - 1)}"


def erlang_body(rng, indent):
    blanks, lines = " " * indent, []
    for _ in range(rng.randint(1, 4)):
        kind = rng.randrange(9)
        if kind == 0 and indent < 16:
            arms = ";\n".join(f"{blanks}    {erlang_value(rng, 1)} ->\n{erlang_body(rng, indent + 8)}" for _ in range(rng.randint(1, 3)))
            lines.append(f"{blanks}case {erlang_value(rng, 2)} of\n{arms}\n{blanks}end")
        elif kind == 1:
            lines.append(f"{blanks}%% {words(rng, 2, 12)}\n{blanks}{erlang_value(rng, 2)}")
        else:
            lines.append(f"{blanks}{camel(rng, 2)} = {erlang_value(rng, 3)}")
    return ",\n".join(lines)


def erlang(rng):
    name, arity = snake(rng, 2), rng.randint(1, 3)
    clauses = []
    for _ in range(rng.randint(1, 3)):
        given = ", ".join(erlang_value(rng, 1) for _ in range(arity))
        guard = rng.choice(["", "", f" when {camel(rng, 1)} > {number(rng, 2)}"])
        clauses.append(f"{name}({given}){guard} ->\n{erlang_body(rng, 4)}")
    head = rng.choice(["", f"%% @doc {words(rng, 4, 20)}\n", f"-export([{name}/{arity}]).\n", f"-spec {name}({word(rng)}()) -> {word(rng)}() | undefined.\n"])
    return head + ";\n".join(clauses) + ".\n\n"


TYPES = "string string bytes bool double int32 int64 uint32 google.protobuf.Timestamp".split()


def proto_field(rng, number_of_field):
    kind = rng.randrange(12)
    named = f"{snake(rng)} = {number_of_field}"
    if kind == 0:
        return f"map<string, {rng.choice([camel(rng, 2), 'int64'])}> {named};"
    if kind == 1:
        return f"{rng.choice(TYPES)} {named} [deprecated = true, (gogo.{word(rng)}) = \"{snake(rng)}\"];"
    if kind == 2:
        return rng.choice([f"reserved {number(rng, 2)}, {number(rng, 2)};", f"option ({word(rng)}.{word(rng)}) = {rng.choice(['true', 'false', '0x1F', '0.5', '-1'])};"])
    return f"{rng.choice(['', '', 'repeated ', 'optional '])}{rng.choice([*TYPES, camel(rng, 3), camel(rng, 2)])} {named};"


def proto_message(rng, indent):
    blanks, lines = "  " * indent, []
    for n in range(1, rng.randint(2, 12)):
        if rng.randrange(3) == 0:
            lines += [f"{blanks}  // {words(rng, 3, 14)}." for _ in range(rng.randint(1, 3))]
        lines.append(f"{blanks}  {proto_field(rng, n)}")
    if indent < 2 and rng.randrange(3) == 0:
        lines.append(proto_message(rng, indent + 1))
    return "\n".join([f"{blanks}message {camel(rng, 3)} {{", *lines, f"{blanks}}}"])


def proto(rng):
    kind = rng.randrange(8)
    if kind == 0:
        return f'syntax = "proto3";\n\npackage {word(rng)}.{word(rng)}.v1;\n\nimport "{word(rng)}/{snake(rng)}.proto";\noption go_package = "{word(rng)}.com/{word(rng)}/{word(rng)}";\n\n'
    if kind == 1:
        values = "".join(f"  {snake(rng).upper()} = {n};\n" for n in range(rng.randint(2, 9)))
        return f"enum {camel(rng, 2)} {{\n{values}}}\n\n"
    if kind == 2:
        calls = "".join(f"  // {words(rng, 4, 16)}.\n  rpc {camel(rng, 2)}({camel(rng, 2)}Request) returns ({rng.choice(['', 'stream '])}{camel(rng, 2)}Response);\n" for _ in range(rng.randint(1, 6)))
        return f"/* {words(rng, 5, 50)} */\nservice {camel(rng, 2)} {{\n{calls}}}\n\n"
    return proto_message(rng, 0) + "\n\n"
