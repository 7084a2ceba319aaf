/* When a constraint holds. A page has no Python, so the predicates stand here once more, as functions alone; the tests compare
   them with those of tools/oracle. Sums and products are exact: they may leave what a double holds. */

const HOLDS = (() => {
  const big = BigInt, sum = (cs, xs) => cs.reduce((total, c, k) => total + big(c) * big(xs[k]), 0n);
  const item = (b, items, c) => b >= 1 && b <= items.length && items[b - 1] === c;
  const eq = (a, b) => a === b, ne = (a, b) => a !== b, le = (a, b) => a <= b, lt = (a, b) => a < b;
  const all = (xs) => (xs.every(Boolean) ? 1 : 0), any = (xs) => (xs.some(Boolean) ? 1 : 0);
  return {
    int_eq: eq, int_ne: ne, int_le: le, int_lt: lt, bool_eq: eq, bool_not: ne, bool_le: le, bool_lt: lt, bool2int: eq,
    int_lin_eq: (cs, xs, c) => sum(cs, xs) === big(c),
    int_lin_ne: (cs, xs, c) => sum(cs, xs) !== big(c),
    int_lin_le: (cs, xs, c) => sum(cs, xs) <= big(c),
    int_plus: (a, b, c) => a + b === c,
    int_times: (a, b, c) => big(a) * big(b) === big(c),
    int_abs: (a, b) => Math.abs(a) === b,
    int_min: (a, b, c) => Math.min(a, b) === c,
    int_max: (a, b, c) => Math.max(a, b) === c,
    int_div: (a, b, c) => b !== 0 && Math.trunc(a / b) === c,
    int_mod: (a, b, c) => b !== 0 && a % b === c,
    array_int_element: item, array_bool_element: item, array_var_int_element: item, array_var_bool_element: item,
    array_int_minimum: (m, xs) => m === Math.min(...xs),
    array_int_maximum: (m, xs) => m === Math.max(...xs),
    set_in: (x, s) => s.some(([low, high]) => low <= x && x <= high),
    bool_and: (a, b, r) => r === Math.min(a, b),
    bool_or: (a, b, r) => r === Math.max(a, b),
    bool_xor: (a, b, r) => (r === 1) === (a !== b),
    array_bool_and: (xs, r) => r === all(xs),
    array_bool_or: (xs, r) => r === any(xs),
    array_bool_xor: (xs) => xs.reduce((total, x) => total + x, 0) % 2 === 1,
    bool_clause: (xs, ys) => any(xs) === 1 || all(ys) === 0,
    all_different_int: (xs) => new Set(xs).size === xs.length,
    table_int: (xs, ns) => ns.some((_, at) => at % xs.length === 0 && xs.every((x, k) => ns[at + k] === x)),
  };
})();

function filled(arg, values) {
  if (Array.isArray(arg)) return arg.map((one) => filled(one, values));
  if (typeof arg !== "object") return arg;
  return "v" in arg ? values[arg.v] : arg.s;
}

function holds(constraint, values) {
  const args = constraint.args.map((arg) => filled(arg, values));
  const plain = constraint.name.replace(/_reif$/, "");
  if (plain === constraint.name) return HOLDS[plain](...args);
  return args.pop() === (HOLDS[plain](...args) ? 1 : 0);
}

function variablesOf(constraint) {
  const found = new Set();
  const look = (arg) => {
    if (Array.isArray(arg)) arg.forEach(look);
    else if (typeof arg === "object" && "v" in arg) found.add(arg.v);
  };
  constraint.args.forEach(look);
  return [...found];
}
