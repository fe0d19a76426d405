#!/bin/sh
# Runs the class files of the machine's tests (crates/machine_tests) on a JDK, where there is one, and compares how each
# run ends and what it writes with what the tests expect of our machine. Codes that end without a row, or never, are
# left out, since a JDK refuses them. It doesn't verify the others, as the codes of traps have no return behind them.
here=$(cd "$(dirname "$0")/.." && pwd)
command -v javac >/dev/null || { echo "no javac here: skipped"; exit 0; }
folder=$(mktemp -d) && cd "$folder" || exit 1
cat > Io.java <<'J'
public class Io {
    static StringBuilder written;
    static int left;
    public static void print(int n) { written.append(n); }
    public static void text(String s) { written.append(s); }
    public static int read() { return left-- > 0 ? 'A' : -1; }
}
J
cat > Cases.java <<'J'
import java.io.IOException;
import java.lang.reflect.InvocationTargetException;
import java.nio.file.Files;
import java.nio.file.Path;

public class Cases {
    static class Loader extends ClassLoader {
        final Path folder;
        Loader(Path folder) { super(Cases.class.getClassLoader()); this.folder = folder; }
        @Override protected Class<?> findClass(String name) throws ClassNotFoundException {
            Path own = folder.resolve(name + ".class");
            try {
                byte[] bytes = Files.readAllBytes(Files.exists(own) ? own : Path.of("shared", name + ".class"));
                return defineClass(name, bytes, 0, bytes.length);
            } catch (IOException e) {
                throw new ClassNotFoundException(name);
            }
        }
    }

    static String word(Throwable t) {
        if (t instanceof NullPointerException) return "null";
        if (t instanceof ArithmeticException) return "zero";
        if (t instanceof ArrayIndexOutOfBoundsException) return "bounds";
        if (t instanceof NegativeArraySizeException) return "size";
        if (t instanceof ClassCastException) return "cast";
        return t.toString();
    }

    static String end(Path folder) throws Exception {
        try {
            var main = new Loader(folder).loadClass("Main").getDeclaredMethod("main");
            main.setAccessible(true);
            main.invoke(null);
            return "done";
        } catch (InvocationTargetException e) {
            return word(e.getCause());
        } catch (LinkageError e) {
            return e.toString();
        }
    }

    public static void main(String[] names) throws Exception {
        int different = 0;
        var lines = Files.readAllLines(Path.of("cases"));
        for (String line : lines) {
            String[] words = line.split(";", -1);
            Io.written = new StringBuilder();
            Io.left = 1;
            String end = end(Path.of(words[0]));
            if (!end.equals(words[1]) || !Io.written.toString().equals(words[2])) {
                different++;
                System.out.println(words[3] + ": " + words[1] + " '" + words[2] + "', the JDK: " + end + " '" + Io.written + "'");
            }
        }
        System.out.println(lines.size() + " codes compared, " + different + " different");
        System.exit(different == 0 ? 0 : 1);
    }
}
J
python3 - "$here/crates/machine_tests/src" <<'P' && javac Io.java Cases.java && java -Xint -XX:+UnlockDiagnosticVMOptions -XX:-BytecodeVerificationRemote Cases 2>/dev/null
import os, re, struct, sys

source = lambda name: open(os.path.join(sys.argv[1], name)).read()
u2, u4 = (lambda n: struct.pack(">H", n)), (lambda n: struct.pack(">I", n & 0xFFFFFFFF))
names = {}
for text in (source("opcodes.rt"), source("classes.rt")):
    for name, value in re.findall(r"const (\w+): u\d+ = (\w+);", text):
        names[name] = int(value, 0)

def constants():
    pool, count = b"", 0
    for text, kind, words in re.findall(r'push_text\(alloc, (?:&mut )?constants, b"(.*?)"\)|constants\.push\(Const::(\w+)(?:\(([-\d, ]*)\))?\)', source("classes.rt")):
        numbers = [int(word) for word in words.split(",")] if words else []
        tag = {"": 1, "Integer": 3, "Float": 4, "Long": 5, "Class": 7, "Text": 8, "Fieldref": 9, "Methodref": 10, "InterfaceMethodref": 11, "NameAndType": 12}
        count += 1
        if kind == "Unused":
            continue
        pool += bytes([tag[kind]])
        if kind == "":
            pool += u2(len(text)) + text.encode()
        elif kind in ("Integer", "Float"):
            pool += u4(numbers[0])
        elif kind == "Long":
            pool += struct.pack(">q", numbers[0])
        else:
            pool += b"".join(u2(n) for n in numbers)
    # The name of the attribute, which our reader's files need only as bytes.
    pool += b"\x01" + u2(4) + b"Code"
    return u2(count + 1) + pool, count

POOL, CODE = constants()
PUBLIC, STATIC = 1, 8

def method(flags, name, descriptor, code):
    body = u2(4) + u2(4) + u4(len(code)) + bytes(code) + u2(0) + u2(0)
    return u2(PUBLIC | flags) + u2(name) + u2(descriptor) + u2(1) + u2(CODE) + u4(len(body)) + body

def field(flags, name, descriptor):
    return u2(PUBLIC | flags) + u2(name) + u2(descriptor) + u2(0)

def file(flags, this, up, interfaces, fields, methods):
    lists = [b"".join(u2(n) for n in interfaces), b"".join(fields), b"".join(methods)]
    counts = [len(interfaces), len(fields), len(methods)]
    return u4(0xCAFEBABE) + u2(0) + u2(48) + POOL + u2(flags) + u2(this) + u2(up) + b"".join(u2(n) + l for n, l in zip(counts, lists)) + u2(0)

def code(text):
    return eval(text, dict(names))

def main(bytes_of_main):
    return file(0x21, 2, 35, [], [field(STATIC, 25, 26), field(0, 29, 26), field(STATIC, 58, 59)], [
        method(STATIC, 3, 4, bytes_of_main),
        method(0, 32, 4, code("[ALOAD_0, INVOKESPECIAL, 0, OBJECT_INIT, RETURN]")),
        method(0, 39, 14, code("[ICONST_1, IRETURN]")),
        method(STATIC, 46, 47, code("[ILOAD_0, ILOAD_0, IADD, IRETURN]")),
        method(STATIC, 53, 54, code("[ALOAD_0, ARETURN]")),
        method(STATIC, 62, 63, code("[ILOAD_2, IRETURN]")),
    ])

def jumps(operands, opcode, taken):
    show = code("[INVOKESTATIC, 0, PRINT, RETURN]")
    return operands + [opcode, 0, 8, names["ICONST_1"]] + show + [names["ICONST_2"]] + show, "done", b"2" if taken else b"1"

forms = {
    "check": lambda c, end, written: (c, end, written),
    "check_numbers": lambda c, printed: (c + code("[INVOKESTATIC, 0, PRINT, RETURN]"), "done", printed),
    "check_ends": lambda c, end: (c, end, b""),
    "check_jumps": jumps,
}
os.mkdir("shared")
sub = method(0, 39, 14, code("[ALOAD_0, INVOKESPECIAL, 0, MAIN_ID, ICONST_1, IADD, IRETURN]"))
open("shared/Sub.class", "wb").write(file(0x21, 38, 2, [44], [], [sub]))
face = u2(PUBLIC | 0x0400) + u2(39) + u2(14) + u2(0)
open("shared/Face.class", "wb").write(file(0x0601, 44, 35, [], [], [face]))
# A receiver that is no instance of the named class: our machine looks at the receiver alone, a JDK's verifier forbids it.
confused = code("[NEW, 0, MAIN_CLASS, INVOKEVIRTUAL, 0, SUB_ID]")
cases = []
for name, table in re.findall(r"(check\w*)\(\s*&rt,\s*rt\.alloc\(\),\s*&(\[.*?\]),\s*\)\n\}", source("cases.rt"), re.S):
    rows = eval(table.replace("&[", "[").replace("true", "True").replace("false", "False"), dict(names))
    for row in rows:
        bytes_of_main, end, written = forms[name](*row)
        if end not in ("no row", "cut") and bytes_of_main[:6] != confused:
            folder = f"case{len(cases)}"
            os.mkdir(folder)
            open(f"{folder}/Main.class", "wb").write(main(bytes_of_main))
            cases.append(f"{folder};{end};{written.decode()};{bytes(bytes_of_main).hex(' ')}")
open("cases", "w").write("\n".join(cases) + "\n")
P
status=$?
rm -rf "$folder"
exit $status
