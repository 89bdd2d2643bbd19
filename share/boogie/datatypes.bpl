// Colors and lists in Boogie 2.4.1: seven procedures that hold, and one that does not.
//
//     boogie /proverOpt:PROVER_PATH=share/cosmt-adapt share/boogie/datatypes.bpl

type {:datatype} Color;
function {:constructor} Red(): Color;
function {:constructor} Green(): Color;
function {:constructor} Blue(): Color;

type Item;
type {:datatype} List;
function {:constructor} Nil(): List;
function {:constructor} Cons(head: Item, tail: List): List;

function {:inline} Next(c: Color): Color
{
  if is#Red(c) then Green() else if is#Green(c) then Blue() else Red()
}

function Previous(Color): Color;
axiom (forall c: Color :: Next(Previous(c)) == c);

procedure ThreeSteps(c: Color) returns (d: Color)
  ensures d == c;
{
  d := Next(c);
  d := Next(d);
  d := Next(d);
}

procedure Acyclic(x: Item, y: Item, s: List)
{
  assert Cons(x, Cons(y, s)) != s;
}

procedure Branches(c0: Color, b: bool) returns (c: Color)
  requires is#Red(c0);
  ensures is#Green(c) || is#Red(c);
{
  c := c0;
  if (b) { c := Next(c); }
  if (is#Green(c)) { return; } else { c := Red(); }
}

procedure Loop(c0: Color, s0: List) returns (c: Color)
  ensures c == c0;
{
  var s: List;
  c := c0;
  s := s0;
  while (is#Cons(s))
    invariant c == c0;
  {
    s := tail#Cons(s);
    c := Next(Next(Next(c)));
  }
}

procedure Map(f: [Color]bool, c: Color)
  requires f[c];
{
  assert f[Next(Next(Next(c)))];
}

procedure Axiom(c: Color)
{
  assert Previous(c) == Next(Next(c));
}

procedure Call(c: Color) returns (d: Color)
  ensures d == c;
{
  call d := ThreeSteps(c);
}

// The second branch is wrong.
procedure Wrong(c0: Color, b: bool) returns (c: Color)
  requires !is#Blue(c0);
  ensures !is#Red(c);
{
  c := Next(c0);
  if (b) { c := Next(Previous(c)); } else { c := Next(c); }
}
