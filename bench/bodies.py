"""Sources with many temporaries, each for a number that its size grows with; bench/alloc and bench/picture build them."""


def straight(temps):
    """Straight code: the sum of an assignment's two elements and their addresses take five temporaries."""
    return "let type t=array of int var a:=t[9] of 0 in " + "a[1]:=a[2]+a[3];" * (temps // 16) + "() end"


def outer(uses):
    """A function 32 levels deep that adds to a variable of the program's body, each time through 32 links."""
    body = "x:=1+x;" * uses + "()"
    for level in range(31, -1, -1):
        body = f"let function f{level}()=({body}) in f{level}() end"
    return f"let var x:=0 in {body} end"


def long_lived(count):
    """Variables that are all used after the last."""
    heads = "".join(f"var v{i}:={i} " for i in range(count))
    sums = "".join(f"s:=s+{'+'.join(f'v{i}' for i in range(first, first + 50))};" for first in range(0, count, 50))
    return f"let var s:=0 {heads} in {sums} exit(s) end"


def looped(count):
    """Variables that live over a loop, each of which its turn changes."""
    heads = "".join(f"var v{i}:={i} " for i in range(count))
    turn = ";".join(f"v{i}:=v{i}+v{(i + 1) % count}" for i in range(count))
    return f"let {heads} in while v0<9 do ({turn}) end"


def moves(count):
    """Variables that get one another's values."""
    names = "abcdefgh"
    heads = "".join(f"var {name}:=0 " for name in names)
    turn = ";".join(f"{names[i % 8]}:={names[(3 * i + 1) % 8]}" for i in range(count))
    return f"let {heads} in while a<9 do ({turn}) end"


def copies(count):
    """Variables that live at once, each copied to another and dead from then on."""
    heads = "".join(f"var v{i}:={i} " for i in range(count)) + "".join(f"var w{i}:=v{i} " for i in range(count))
    places = range(0, count, 50)
    sums = "".join(f"s:=s+{'+'.join(f'w{i}' for i in range(first, min(count, first + 50)))};" for first in places)
    return f"let var s:=0 {heads} in {sums} exit(s) end"


def arguments(count):
    """A call with so many arguments that are calls: each lives over those after it."""
    names = ",".join(f"p{i}:int" for i in range(count))
    return f"let function g():int=1 function f({names}):int=1 in exit(f({','.join(['g()'] * count)})) end"


def cliques(count):
    """Functions whose 40 variables live at once, one after another in a body."""
    heads = "".join(f"var v{i}:={i} " for i in range(40))
    total = "+".join(f"v{i}" for i in range(40))
    one = f"let function f()=let {heads} in exit({total}) end in f() end;"
    return "(" + one * count + "())"


def whole(bodies):
    """A program of so many bodies of nearly 4,096 nodes, the last of which fills it."""
    one = "let type t=array of int var a:=t[9] of 0 function f()=(" + "a[1]:=a[2]+a[3];" * 310 + "()) in f() end;"
    return "(" + one * bodies + "0)"


def calls_in(bodies, count):
    """Functions that each make a call with so many arguments that are calls."""
    names, given = ",".join(f"p{i}:int" for i in range(count)), ",".join(["g()"] * count)
    heads = "".join(f"function h{i}()=f({given}) " for i in range(bodies))
    return f"let function g():int=1 function f({names})=() {heads} in () end"


def calls_through(bodies, count, levels=31):
    """Functions in so many others, each with calls one after another of a function that none of those is in."""
    body = "let " + "".join(f"function h{i}()=({'g();' * count}()) " for i in range(bodies)) + "in () end"
    for level in range(levels - 1, -1, -1):
        body = f"let function l{level}()={body} in l{level}() end"
    return f"let var x:=0 function g()=x:=x+1 in {body} end"


def arguments_in(bodies, count, one, heads=""):
    """Functions that each make a call with so many arguments that are all the same."""
    names, given = ",".join(f"p{i}:int" for i in range(count)), ",".join([one] * count)
    calls = "".join(f"function h{i}()=f({given}) " for i in range(bodies))
    return f"let {heads} function f({names})=() {calls} in () end"


def records(times, count):
    """A record of so many calls, in each of several functions."""
    fields, given = ",".join(f"f{i}:int" for i in range(count)), ",".join(f"f{i}=g()" for i in range(count))
    heads = "".join(f"function h{i}():r=r{{{given}}} " for i in range(times))
    return f"let type r={{{fields}}} function g():int=1 {heads} in () end"
