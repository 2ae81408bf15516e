program series;

function sum(const values: array of longint): longint;
var
  i: longint;
begin
  sum := 0;
  for i := low(values) to high(values) do
    sum := sum + values[i];
end;

begin
  halt(sum([3, 1, 4, 1, 5]));
end.
