// Two callers share a lock. The second one may ask first whether it is free, and goes on only where it is; but it need not ask.
var held: bool;

function is_free(h: bool): bool { !h }

procedure main() returns (done: bool)
  modifies held;
{
  var asks: bool;

  held := false;
  assert is_free(held);
  held := true;

  havoc asks;
  assume asks ==> is_free(held);
  assert is_free(held);
  held := true;
  done := true;
}
