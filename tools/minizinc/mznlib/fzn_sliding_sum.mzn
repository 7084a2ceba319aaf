% Each run of so many numbers has a sum in the range. Every sum is its own linear constraint, so nothing new is introduced;
% the standard library's way over partial sums leaves these without bounds.
predicate fzn_sliding_sum(int: low, int: up, int: seq, array[int] of var int: vs) =
  forall(i in min(index_set(vs))..max(index_set(vs)) - seq + 1)(
    low <= sum(j in i..i + seq - 1)(vs[j]) /\ sum(j in i..i + seq - 1)(vs[j]) <= up);
