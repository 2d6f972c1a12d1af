// Two callers share a lock. The first one lets go of it before the second one takes it, so whatever the second one asks, the lock
// is free.
var held: bool;

function is_free(h: bool): bool { !h }

procedure main() returns (done: bool)
  modifies held;
{
  var asks: bool;

  held := false;
  assert is_free(held);
  held := true;
  held := false;

  havoc asks;
  assume asks ==> is_free(held);
  assert is_free(held);
  held := true;
  done := true;
}
