"""The pieces of work: what each reads, its command, and how docs/COMMANDS.md would write that."""
import dataclasses
import os
import shutil

CACHE = os.environ["CACHE"]
LUA, HELLO, ZLIB, BC = (f"{CACHE}/{name}" for name in ("lua5.4", "hello", "zlib", "bc"))
INPUTS = f"{CACHE}/inputs"


@dataclasses.dataclass
class Piece:
    name: str
    reads: list  # pairs of a folder of this machine and where it comes to
    script: str  # of the shell
    careful: str = ""  # as docs/COMMANDS.md writes it, where that is another one
    before: tuple = ()  # scripts whose results are there before
    wants: tuple = ()  # programs
    words: str = ""  # of the line `run`, before the command
    careful_words: str = ""

    def line(self, is_careful=False):
        words = self.careful_words if is_careful and self.careful_words else self.words
        return shell(self.careful if is_careful and self.careful else self.script, words)

    def has_careful(self):
        return bool(self.careful or self.careful_words)

    def is_there(self):
        return all(shutil.which(it) for it in self.wants) and all(os.path.isdir(folder) for folder, _ in self.reads)


def shell(script, words=""):
    assert "'" not in script
    return f"run env=PATH=/usr/bin:/bin {words + ' ' if words else ''}-- /bin/sh -c '{script}'"


def folder(name, files):
    """A folder of inputs that this script makes: of each file, its text, or the file that it is a copy of."""
    to = f"{INPUTS}/{name}"
    shutil.rmtree(to, ignore_errors=True)
    os.makedirs(to)
    for file, text in files.items():
        os.makedirs(os.path.dirname(f"{to}/{file}"), exist_ok=True)
        if isinstance(text, str):
            with open(f"{to}/{file}", "w") as it:
                it.write(text)
        elif os.path.isfile(text[0]):
            shutil.copyfile(text[0], f"{to}/{file}")
        else:
            shutil.rmtree(to)
            return to
    return to


def python_library(name, *modules):
    """A copy of modules of Debian's own python3, without what was compiled of them."""
    to = f"{INPUTS}/{name}"
    shutil.rmtree(to, ignore_errors=True)
    for base in sorted(os.listdir("/usr/lib")):
        for module in modules:
            at = f"/usr/lib/{base}/{module}"
            if base.startswith("python3.") and os.path.isdir(at):
                shutil.copytree(at, f"{to}/{module}", ignore=shutil.ignore_patterns("__pycache__"), dirs_exist_ok=True)
    return to


MACROS = """define(`forloop', `pushdef(`$1', `$2')_forloop($@)popdef(`$1')')dnl
define(`_forloop', `$4`'ifelse($1, `$3', `', `define(`$1', incr($1))$0($@)')')dnl
forloop(`i', `1', `200', `the square of i is eval(i * i)
')dnl
"""
TABLE = """create table t (n integer primary key, square integer, text text);
with recursive c(n) as (select 1 union all select n + 1 from c where n < 12000)
insert into t select n, n * n, 'row ' || n || ' of the table' from c;
"""
JSON = """const fs = require('fs');
const rows = fs.readFileSync('manual.html', 'utf8').split('\\n').map((line, n) => ({ n, length: line.length, line }));
fs.writeFileSync('rows.json', JSON.stringify(rows, null, 1));
"""
JAVA = """public class Hello {
    public static void main(String[] words) { System.out.println("Hello " + words.length); }
}
"""


def pieces():
    source, lua = [(f"{LUA}/src", "")], [(LUA, "")]
    text = [(folder("text", {"words": (f"{LUA}/doc/manual.html",)}), "")]
    page = [(folder("page", {"bash.1.gz": ("/usr/share/man/man1/bash.1.gz",)}), "")]
    packed = [(folder("packed", {"lua.tgz": (packed_lua(),)}), "")]
    shell_program = [(folder("bash", {"bash": ("/bin/bash",)}), "")]
    macros = [(folder("m4", {"in.m4": MACROS}), "")]
    table = [(folder("sql", {"make.sql": TABLE}), "")]
    node = [(folder("node", {"rows.js": JSON, "manual.html": (f"{LUA}/doc/manual.html",)}), "")]
    java = [(folder("java", {"Hello.java": JAVA}), "")]
    readme = [(folder("markdown", {"README": (f"{ZLIB}/README",)}), "")]
    asyncio = [(python_library("asyncio", "asyncio"), "")]
    tool = [(python_library("json", "json"), "app")]
    objects = "gcc -O2 -c lcode.c lparser.c ltable.c lstrlib.c"
    four = "lcode.o lparser.o ltable.o lstrlib.o"
    steady = "--sort=name --mtime=@0 --owner=0 --group=0 --numeric-owner"
    user = "-c user.name=me -c user.email=me@here"
    dates = "env=GIT_AUTHOR_DATE=2000-01-01T00:00:00Z env=GIT_COMMITTER_DATE=2000-01-01T00:00:00Z"
    return [
        Piece("cat *.c | sort", source, "cat *.c | sort > all"),
        Piece("gcc -O2 -c", source, "gcc -O2 -c lvm.c", wants=("gcc",)),
        Piece("make a", source, "make a", wants=("gcc", "make", "ar")),
        Piece("make lua luac", source, "make lua luac", wants=("gcc", "make", "ar")),
        Piece("make lua, -g", source, "make lua MYCFLAGS=-g", wants=("gcc", "make", "ar")),
        Piece("gcc -g, prefix map", source, "gcc -g -O2 -ffile-prefix-map=$PWD=. -c lvm.c", wants=("gcc",)),
        Piece("tar cf", lua, "tar cf lua.tar src doc", f"tar {steady} -cf lua.tar src doc", wants=("tar",)),
        Piece("tar --mtime=@0 ..", lua, f"tar {steady} -cf lua.tar src doc", wants=("tar",)),
        Piece("tar xzf", packed, "tar xzf lua.tgz", wants=("tar", "gzip")),
        Piece("gzip", source, "gzip lvm.c", "gzip -n lvm.c", wants=("gzip",)),
        Piece("gzip -n", source, "gzip -n lvm.c", wants=("gzip",)),
        Piece("gunzip", source, "gunzip *.gz", before=("gzip -n l[a-m]*.c",), wants=("gzip",)),
        Piece("ar rcU", source, f"ar rcU x.a {four}", f"ar rcD x.a {four}", before=(objects,), wants=("gcc", "ar")),
        Piece("ar rcD", source, f"ar rcD x.a {four}", before=(objects,), wants=("gcc", "ar")),
        Piece("bison -d", [(f"{BC}/bc", "")], "bison -d bc.y", wants=("bison",)),
        Piece("flex", [(f"{BC}/bc", "")], "flex scan.l", wants=("flex", "m4")),
        Piece("m4", macros, "m4 in.m4 > out", wants=("m4",)),
        Piece("groff -Tps", page, "groff -man -Tps bash.1 > bash.ps", before=("gunzip bash.1.gz",), wants=("groff", "grops")),
        Piece("groff -Tascii", page, "groff -man -Tascii bash.1 > bash.txt", before=("gunzip bash.1.gz",), wants=("groff",)),
        Piece("rcs ci", source, "ci -q -l -t-text -mfirst lvm.c", wants=("ci",), careful_words="env=LOGNAME=me"),
        Piece("rcs co", source, "co -q lvm.c", before=("ci -q -t-text -mfirst lvm.c",), wants=("co",)),
        Piece("diff -u", source, "diff -u lvm.c new.c > change", before=("sed s/lua_State/State/ lvm.c > new.c",), wants=("diff",)),
        Piece("patch", source, "patch -s lvm.c change", wants=("patch", "diff"),
              before=("sed s/lua_State/State/ lvm.c > new.c; diff lvm.c new.c > change; rm new.c",)),
        Piece("configure (hello)", [(HELLO, "")], "./configure", "./configure; rm -f config.log", wants=("gcc", "make")),
        Piece("configure, make (zlib)", [(ZLIB, "")], "./configure && make libz.a",
              "./configure && make libz.a; rm -f configure.log", wants=("gcc", "make", "ar")),
        Piece("python compileall", asyncio, "/usr/bin/python3 -m compileall -q .",
              "/usr/bin/python3 -m compileall -q --invalidation-mode checked-hash .", wants=("/usr/bin/python3",)),
        Piece("compileall, checked-hash", asyncio, "/usr/bin/python3 -m compileall -q --invalidation-mode checked-hash .",
              wants=("/usr/bin/python3",)),
        Piece("zip -qr", lua, "zip -qr doc.zip doc", "find doc | LC_ALL=C sort | zip -qX@ doc.zip", wants=("zip",),
              careful_words="env=TZ=UTC"),
        Piece("tar cJf --mtime=@0 ..", lua, f"tar {steady} -cJf doc.tar.xz doc", wants=("tar", "xz")),
        Piece("markdown", readme, "markdown README > readme.html", wants=("markdown",)),
        Piece("sqlite3, table and dump", table, "sqlite3 db < make.sql; sqlite3 db .dump > dump", wants=("sqlite3",)),
        Piece("sqlite3 .dump", table, "sqlite3 db .dump > dump", before=("sqlite3 db < make.sql",), wants=("sqlite3",)),
        Piece("sqlite3, update", table, "sqlite3 db \"update t set square = square + n\"", before=("sqlite3 db < make.sql",),
              wants=("sqlite3",)),
        Piece("git init, add, commit", lua, f"git init -q && git add . && git {user} commit -qm first",
              f"git init -q && git add . && git {user} commit -qm first && rm .git/index", wants=("git",),
              words="env=HOME=/", careful_words=f"env=HOME=/ {dates}"),
        Piece("node", node, "node rows.js", wants=("node",)),
        Piece("javac", java, "javac Hello.java", wants=("javac",)),
        Piece("sort > $(mktemp)", source, "sort lvm.c > $(mktemp objXXXXXX)", words="tmp=obj??????"),
        Piece("sed -i", source, "sed -i s/lua_State/State/g *.c", wants=("sed",)),
        Piece("split", text, "split -b 4096 words"),
        Piece("strip", shell_program, "strip -o b2 bash", wants=("strip",)),
        Piece("python zipapp", tool, "/usr/bin/python3 -m zipapp app -m json.tool:main", wants=("/usr/bin/python3",)),
        Piece("shuf", source, "shuf lvm.c > s", "shuf --random-source=lvm.c lvm.c > s"),
        # Beside these, what is told of elsewhere.
        Piece("gcc -g -O2 -c", source, "gcc -g -O2 -c lvm.c", wants=("gcc",)),
        Piece("sort; pwd", source, "sort lvm.c > s; pwd >> s"),
        Piece("sort; date, host, id", source, "(sort lvm.c; date; hostname; id) > s"),
        # What may be run: what one run built runs in the next, and what is built and put into its place.
        Piece("./lua, made before", source, './lua -e "for i = 1, 20000 do print(i, i * i) end" > squares',
              before=("make lua",), wants=("gcc", "make", "ar")),
        Piece("make, make install (lua)", lua, "make generic && make install INSTALL_TOP=$PWD/out", wants=("gcc", "make", "ar", "install")),
        Piece("configure, make, ./hello", [(HELLO, "")], "./configure && make && ./hello -g $PWD > greeting",
              "./configure && make && ./hello -g $PWD > greeting; rm -f config.log", wants=("gcc", "make")),
    ]


def packed_lua():
    """The sources of lua as Debian packed them."""
    packed = f"{CACHE}/packed"
    names = sorted(os.listdir(packed)) if os.path.isdir(packed) else []
    return next((f"{packed}/{it}" for it in names if it.startswith("lua5.4_") and it.endswith(".orig.tar.gz")), "none")
