#!/usr/bin/env python3
"""Tests from_ir.py on short functions in IR, without clang: test.py. Prints each that comes out otherwise."""
import contextlib
import io
import pathlib
import sys
import tempfile

sys.dont_write_bytecode = True
import from_ir  # noqa: E402


def function(result, parameters, *lines, name="f"):
    head = f"define dso_local {result} @{name}({parameters}) #0 {{"
    return "\n".join([head, "entry:", *("  " + line for line in lines), "}", ""])


WORD = "i32 noundef %a, i32 noundef %b"
WRAPS = function("i32", WORD, "%c = add i32 %a, %b", "ret i32 %c")
NARROWS = function("zeroext i8", "i8 noundef zeroext %a", "%c = zext i8 %a to i32", "%d = add nsw i32 %c, 200",
                   "%e = trunc i32 %d to i8", "ret i8 %e")
WIDE = function("i32", "i8 noundef zeroext %a", "%c = zext i8 %a to i32", "%d = add nsw i32 %c, 200", "ret i32 %d")
TABLE = "@t = internal constant [2 x [2 x i32]] [[2 x i32] [i32 3, i32 -1], [2 x i32] zeroinitializer], align 16\n"
LOOKED_UP = TABLE + function("i32", "i64 noundef %k",
                             "%p = getelementptr inbounds [2 x [2 x i32]], [2 x [2 x i32]]* @t, i64 0, i64 %k",
                             "%q = getelementptr inbounds [2 x i32], [2 x i32]* %p, i64 0, i64 1",
                             "%v = load i32, i32* %q, align 4", "ret i32 %v")
LOCAL = function("i32", "i64 noundef %k", "%t = alloca [4 x i32], align 16", "%z = bitcast [4 x i32]* %t to i8*",
                 "call void @llvm.memset.p0i8.i64(i8* align 16 %z, i8 0, i64 16, i1 false)",
                 "%p = getelementptr inbounds [4 x i32], [4 x i32]* %t, i64 0, i64 %k", "store i32 7, i32* %p, align 4",
                 "%v = load i32, i32* %p, align 4", "ret i32 %v")
PART = LOCAL.replace("i64 16", "i64 8")
ROWS = function("i32", "[4 x i32]* noalias noundef %a, i64 noundef %i, i64 noundef %j",
                "%p = getelementptr inbounds [4 x i32], [4 x i32]* %a, i64 %i, i64 %j",
                "%v = load i32, i32* %p, align 4", "ret i32 %v")
SHARED = function("void", "i32* noundef %a, i32* noundef %b", "store i32 1, i32* %a, align 4",
                  "%v = load i32, i32* %b, align 4", "ret void")


def one(*lines, width=32):
    return function(f"i{width}", f"i{width} noundef %a, i{width} noundef %b", *lines, f"ret i{width} %v")


# The IR, the words behind the file, and what the answer is to hold: a part of the machine, or of the line that refuses.
CASES = [
    (WRAPS, "", "add without nsw does not wrap"),
    (WRAPS, "--assume-no-wrap", "# Assumed, not known, in 1 place: add without nsw does not wrap."),
    (WRAPS, "--assume-no-wrap", "result = a + b;"),
    (WRAPS.replace("add", "add nuw"), "", "add without nsw"),
    (WRAPS.replace("add", "add nsw"), "", "result = a + b;"),
    (WRAPS.replace("add", "sub"), "", "sub without nsw"),
    (WRAPS.replace("add", "mul"), "", "mul without nsw"),
    (WRAPS.replace("add", "udiv"), "", "what udiv takes is not negative"),
    (NARROWS, "", "trunc keeps its number"),
    (NARROWS, "--assume-no-wrap", "in 1 place: trunc keeps its number"),
    (NARROWS, "--assume-no-wrap", "result = (((a % 256 + 256) % 256 + 200) % 256 + 256) % 256;"),
    (WIDE, "", "result = (a % 256 + 256) % 256 + 200;"),
    (one("%v = shl i32 %a, 2"), "", "shl without nsw"),
    (one("%v = shl nsw i32 %a, 2"), "", "result = a * 4;"),
    (one("%v = shl nsw i32 %a, %b"), "", "shl by what is no constant"),
    (one("%v = shl nsw i32 %a, 32"), "", "no constant below 32"),
    (one("%v = lshr i32 %a, 2"), "", "result = (a % 4294967296 + 4294967296) % 4294967296 / 4;"),
    (one("%v = lshr i32 %a, 2"), "--assume-no-wrap", "what lshr takes is not negative"),
    (one("%v = lshr i8 %a, 2", width=8), "--assume-no-wrap", "result = (a % 256 + 256) % 256 / 4;"),
    (one("%c = and i32 %a, 15", "%d = lshr i32 %c, 2", "%v = add i32 %c, %d"), "",
     "result = (a % 16 + 16) % 16 + (a % 16 + 16) % 16 / 4;"),
    (one("%c = and i32 15, %a", "%v = and i32 %c, 3"), "", "result = (a % 16 + 16) % 16 % 4;"),
    (one("%v = ashr i32 %a, 1"), "", "result = (a - (a % 2 + 2) % 2) / 2;"),
    (one("%v = and i32 %a, 5"), "", "a mask that is no power of 2 less 1"),
    (one("%v = or i32 %a, 5"), "", "an instruction that is not translated"),
    (one("%c = icmp slt i32 %a, 0", "%d = zext i1 %c to i32", "%e = trunc i32 %d to i8", "%v = sext i8 %e to i32"), "",
     "result = d;"),
    (one("%c = trunc i32 %a to i1", "%v = select i1 %c, i32 %a, i32 %b"), "", "when a % 2 != 0 goto"),
    (one("%v = add nsw i32 undef, %b"), "", "an undefined value in an operation"),
    (LOOKED_UP, "", "goto entry: t[0] = 3, t[1] = -1;"),
    (LOOKED_UP, "", "result = t[k * 2 + 1];"),
    (LOOKED_UP, "--instructions", "state begin:\n  goto table: t[0] = 3;\nstate table:\n  goto entry: t[1] = -1;"),
    (LOOKED_UP.replace("constant", "global"), "", "a variable of the file"),
    (LOCAL, "", "local array t;"),
    (LOCAL, "", "t[0] = 0, t[1] = 0, t[2] = 0, t[3] = 0, t[k] = 7;"),
    (PART, "", "a part of an array"),
    (ROWS, "", "result = a[i * 4 + j];"),
    (ROWS.replace("inbounds ", ""), "", "an address without inbounds does not wrap"),
    (SHARED, "", "a and b may overlap: declare one of them restrict"),
    (SHARED.replace("%a,", "noalias %a,", 1).replace("i32* noundef noalias", "i32* noalias noundef", 1), "", "output array a;"),
    (WRAPS + function("i32", WORD, "ret i32 %a", name="g"), "", "2 functions: name one by --function, of f, g"),
    (WRAPS + function("i32", WORD, "ret i32 %a", name="g"), "--function g", "result = a;"),
    (WRAPS, "--function h", "no function h: there is f"),
    ("", "", "no function"),
    (function("float", "float noundef %a", "ret float %a"), "", "a parameter of a type that is not taken: float"),
    (function("i32", WORD, "%c = sitofp i32 %a to float", "ret i32 %a"), "", "the type float is not taken"),
    (function("i32", "i32 noundef %a, ...", "ret i32 %a"), "", "a function whose parameters are not taken"),
    (function("i32", WORD, "br label %nowhere"), "", "this is not read as IR of clang 14"),
    (WRAPS.rstrip("}\n"), "", "this is not read as IR of clang 14"),
    (None, "", "cannot be read: No such file or directory"),
    ("\udcff", "", "is no text"),
]


def answered(file, words):
    """What is printed, where that is a machine, or one line and no machine."""
    out, errors, status = io.StringIO(), io.StringIO(), 0
    with contextlib.redirect_stdout(out), contextlib.redirect_stderr(errors):
        try:
            from_ir.main([str(file), *words.split()])
        except SystemExit as end:
            status = end.code
    machine, said = out.getvalue(), errors.getvalue()
    if status == 0:
        return machine + said
    refused = isinstance(status, str) and "\n" not in status and not machine + said
    return status if refused else f"status {status}: {machine}{said}"


def main():
    bad = 0
    with tempfile.TemporaryDirectory() as folder:
        for number, (text, words, wanted) in enumerate(CASES):
            file = pathlib.Path(folder, f"{number}.ll")
            if text is not None:
                file.write_bytes(text.encode(errors="surrogateescape"))
            said = answered(file, words)
            if wanted not in said:
                bad += 1
                print(f"case {number + 1}: wanted '{wanted}' of\n{text}but there is\n{said}")
    sys.exit(bad != 0)


if __name__ == "__main__":
    main()
