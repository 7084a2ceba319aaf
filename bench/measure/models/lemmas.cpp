// A model of a search for lists of lemmas: what bench/run lists holds the program against. g++ -O2 -std=c++17
//
//     lemmas PROBLEM [-o LIST] [--limit SECONDS] [switches]
//
// It was written to try the search before the program had one, apart from the program's code, and only bench/run lists uses
// it. It reads a plain game (restrictions, no conditions and aggregates), and takes any text as valid; it searches until a
// lemma says who wins or the limit is over (20 seconds by the clock, if none is given), writes the list of lemmas (docs/lemmas.md),
// and prints one line of JSON: the outcome or `open`, seconds, and counts. Nothing is known of it but what qdense says of its
// lists. On some games it stops with status 4, `not asserting`.
//
// Names: C constraints, S scopes, N their number, which is the goal's; NV variables, NT with the numbers that stand among
// arguments; M the values left, P the changes that led there (`St`), LM the lemmas (`Lem`, with literals `Lt`, sums `Sm` and
// proof items `Item`); vside and cside, 0 the player's and 1 the opponent's; CF the conflict at hand. In order: the problem, the
// store, filters of constraints, the table of refutations, the reader, propagation by lemmas, the analysis of conflicts, the
// search, the writer.
#include <algorithm>
#include <chrono>
#include <cstdint>
#include <cstdio>
#include <cstdlib>
#include <cstring>
#include <map>
#include <new>
#include <string>
#include <sys/resource.h>
#include <unordered_map>
#include <vector>
using namespace std;
typedef int64_t i64;
typedef uint64_t u64;
typedef int32_t i32;
typedef uint32_t u32;
static double now() { return chrono::duration<double>(chrono::steady_clock::now().time_since_epoch()).count(); }

// ------------------------------------------------------------ problem
enum Kind {
  LE,
  EQL,
  EQS,
  SETIN,
  CLAUSE,
  AND_,
  OR_,
  XOR_,
  ELC,
  ELV,
  MIN_,
  MAX_,
  TIMES,
  ABS_,
  MIN2,
  MAX2,
  DIV,
  MOD,
  ALLDIFF,
  TABLE
};
struct Con {
  Kind k;
  int owner;
  bool generic = false;
  int r = -1;
  bool rneg = false;
  bool neg = false; // neg: plain with no r and negative (ne)
  vector<int> v;
  vector<i64> a;
  i64 c = 0;
  vector<i64> data;
  vector<int> own;
  int prio = 0;
  int npos = 0;
  bool stat = false;
  vector<int> flat;
};
static vector<Con> C;
static int NV = 0, NT = 0; // variables, with constants
static vector<i32> dlo, dhi;
static vector<vector<i32>> dlist; // dlist only if gaps
static vector<int> vscope;
static vector<char> vbool;
struct Scope {
  bool ex;
  bool cond = false;
  bool mx = false;
  bool tagg = false;
  int tid = -1;
  string tname;
  vector<int> vars, cons;
  vector<int> aggs;
  int be;
};
static vector<Scope> S;
static vector<int> goalCons;
static int N; // scopes 0..N-1, goal N
struct Agg {
  int scope;
  int fold;
  i64 els = 0;
  bool tagg;
  int tid;
  string tname;
}; // fold 0 sum 1 least 2 greatest
static vector<Agg> A;
// ------------------------------------------------------------ store
struct Tr {
  i32 x, lo, hi, size, w;
  i32 con;
  u64 bits;
};
struct Store {
  vector<i32> lo, hi, size, base, wo;
  vector<u64> bits;
  vector<Tr> tr;
  u64 changes = 0;
  void init() {
    lo.resize(NT);
    hi.resize(NT);
    size.resize(NT);
    base.resize(NT);
    wo.resize(NT);
    for (int x = 0; x < NT; x++) {
      lo[x] = dlo[x];
      hi[x] = dhi[x];
      base[x] = dlo[x];
      wo[x] = bits.size();
      size_t w = ((i64)dhi[x] - dlo[x]) / 64 + 1;
      size_t o = bits.size();
      bits.resize(o + w, ~0ull);
      if (x < NV && !dlist[x].empty()) {
        for (size_t k = 0; k < w; k++) bits[o + k] = 0;
        for (i32 v : dlist[x]) {
          i32 d = v - dlo[x];
          bits[o + d / 64] |= 1ull << (d % 64);
        }
        size[x] = dlist[x].size();
      } else size[x] = dhi[x] - dlo[x] + 1;
    }
  }
  bool has(int x, i64 v) const {
    if (v < lo[x] || v > hi[x] || !size[x]) return false;
    i32 d = (i32)v - base[x];
    return bits[wo[x] + d / 64] >> (d % 64) & 1;
  }
  bool full(int x) const { return size[x] == hi[x] - lo[x] + 1; }
  static const i64 NONE = (i64)1 << 40;
  i64 next(int x, i64 v) const {
    if (v <= lo[x]) return lo[x];
    if (v > hi[x]) return NONE;
    if (full(x)) return v;
    i32 d = (i32)v - base[x];
    int w = d / 64;
    u64 b = bits[wo[x] + w] & (~0ull << (d % 64));
    while (!b) {
      w++;
      b = bits[wo[x] + w];
    }
    return base[x] + (i64)w * 64 + __builtin_ctzll(b);
  }
  i64 prev(int x, i64 v) const {
    if (v >= hi[x]) return hi[x];
    if (v < lo[x]) return -NONE;
    if (full(x)) return v;
    i32 d = (i32)v - base[x];
    int w = d / 64;
    u64 b = bits[wo[x] + w] & (~0ull >> (63 - d % 64));
    while (!b) {
      w--;
      b = bits[wo[x] + w];
    }
    return base[x] + (i64)w * 64 + 63 - __builtin_clzll(b);
  }
  i32 count(int x, i32 l, i32 h) const {
    if (full(x)) return h - l + 1;
    i32 d = l - base[x], e = h - base[x];
    int w = d / 64, z = e / 64;
    i32 n = 0;
    for (int k = w; k <= z; k++) {
      u64 b = bits[wo[x] + k];
      if (k == w) b &= ~0ull << (d % 64);
      if (k == z) b &= ~0ull >> (63 - e % 64);
      n += __builtin_popcountll(b);
    }
    return n;
  }
  void push(int x, int w, int con) { tr.push_back({x, lo[x], hi[x], size[x], w, con, w >= 0 ? bits[w] : 0}); }
  // gives events: 0 nothing, bit1 min, bit2 max, bit4 fixed, bit8 dom; size 0 if emptied
  int remove(int x, i64 l64, i64 h64, int con) {
    if (!size[x]) return 0;
    if (l64 < lo[x]) l64 = lo[x];
    if (h64 > hi[x]) h64 = hi[x];
    if (l64 > h64) return 0;
    i32 l = l64, h = h64;
    int ev = 0;
    if (l == lo[x] && h == hi[x]) {
      push(x, -1, con);
      size[x] = 0;
      changes++;
      return 15;
    }
    if (l == lo[x]) {
      i32 n = count(x, l, h);
      i32 nl = next(x, (i64)h + 1);
      push(x, -1, con);
      lo[x] = nl;
      size[x] -= n;
      ev = 1 | 8;
    } else if (h == hi[x]) {
      i32 n = count(x, l, h);
      i32 nh = prev(x, (i64)l - 1);
      push(x, -1, con);
      hi[x] = nh;
      size[x] -= n;
      ev = 2 | 8;
    } else {
      i32 n = count(x, l, h);
      if (!n) return 0;
      clear(x, l, h, con);
      size[x] -= n;
      ev = 8;
    }
    changes++;
    if (size[x] == 1) ev |= 4;
    return ev;
  }
  void clear(int x, i32 l, i32 h, int con) {
    i32 d = l - base[x], e = h - base[x];
    int w = d / 64, z = e / 64;
    for (int k = w; k <= z; k++) {
      u64 b = ~0ull;
      if (k == w) b &= ~0ull << (d % 64);
      if (k == z) b &= ~0ull >> (63 - e % 64);
      if (bits[wo[x] + k] & b) {
        push(x, wo[x] + k, con);
        bits[wo[x] + k] &= ~b;
      }
    }
  }
  int assign(int x, i32 v) {
    int ev = 0;
    if (size[x] == 1) return 0;
    push(x, -1, -1);
    if (lo[x] != v) ev |= 1;
    if (hi[x] != v) ev |= 2;
    lo[x] = hi[x] = v;
    size[x] = 1;
    changes++;
    return ev | 4 | 8;
  }
  int intersect(int x, const Store &o) {
    int ev = 0;
    if (o.lo[x] > lo[x]) ev |= remove(x, lo[x], (i64)o.lo[x] - 1, -1);
    if (!size[x]) return ev;
    if (o.hi[x] < hi[x]) ev |= remove(x, (i64)o.hi[x] + 1, hi[x], -1);
    if (!size[x]) return ev;
    if (!o.full(x)) { // holes
      i32 d = lo[x] - base[x], e = hi[x] - base[x];
      int w = d / 64, z = e / 64;
      bool ch = false;
      for (int k = w; k <= z; k++) {
        u64 m = ~0ull;
        if (k == w) m &= ~0ull << (d % 64);
        if (k == z) m &= ~0ull >> (63 - e % 64);
        int q = wo[x] + k;
        if (bits[q] & m & ~o.bits[q]) {
          push(x, q, -1);
          bits[q] &= o.bits[q] | ~m;
          ch = true;
        }
      }
      if (ch) {
        i32 n = 0;
        i64 nl = NONE, nh = -NONE;
        for (int k = w; k <= z; k++) {
          u64 m = ~0ull;
          if (k == w) m &= ~0ull << (d % 64);
          if (k == z) m &= ~0ull >> (63 - e % 64);
          u64 b = bits[wo[x] + k] & m;
          if (b) {
            n += __builtin_popcountll(b);
            if (nl == NONE) nl = base[x] + (i64)k * 64 + __builtin_ctzll(b);
            nh = base[x] + (i64)k * 64 + 63 - __builtin_clzll(b);
          }
        }
        size[x] = n;
        changes++;
        if (!n) return 15;
        ev |= 8;
        if (nl != lo[x]) ev |= 1;
        if (nh != hi[x]) ev |= 2;
        lo[x] = nl;
        hi[x] = nh;
      }
    }
    if (size[x] == 1 && ev) ev |= 4;
    return ev;
  }
  void undo(size_t m) {
    while (tr.size() > m) {
      Tr &t = tr.back();
      lo[t.x] = t.lo;
      hi[t.x] = t.hi;
      size[t.x] = t.size;
      if (t.w >= 0) bits[t.w] = t.bits;
      tr.pop_back();
    }
  }
};
// ------------------------------------------------------------ engine
struct W {
  int c;
  short mask;
  short owner;
};
static vector<vector<W>> watch;
struct Engine {
  Store *s;
  int olo, ohi;
};
static Engine E;
static vector<int> Q[4];
static size_t qh[4];
static vector<char> inq;
static inline void enq(int c) {
  if (!inq[c]) {
    inq[c] = 1;
    Q[C[c].prio].push_back(c);
  }
}
static vector<int> hint; // two literals of each clause, var*2+positive; -1 where the constraint is no plain clause
static inline bool hinted(int c) {
  const Store &s = *E.s;
  int a = hint[2 * c], b = hint[2 * c + 1];
  if (a < 0) return false;
  int x = a >> 1, y = b >> 1;
  bool na = (a & 1) ? s.hi[x] == 1 : s.lo[x] == 0, nb = (b & 1) ? s.hi[y] == 1 : s.lo[y] == 0;
  if (!s.size[x] || !s.size[y]) return false;
  if (na && nb && a != b) return true;
  return (na && s.size[x] == 1) || (nb && s.size[y] == 1);
}
static inline void notify(int x, int ev) {
  if (x >= NV) return;
  for (const W &w : watch[x])
    if (w.mask & ev) {
      int o = w.owner;
      if (o >= E.olo && o <= E.ohi && !inq[w.c] && !hinted(w.c)) enq(w.c);
    }
}
static void clearq() {
  for (int p = 0; p < 4; p++) {
    for (size_t k = qh[p]; k < Q[p].size(); k++) inq[Q[p][k]] = 0;
    Q[p].clear();
    qh[p] = 0;
  }
}
static bool failc(int c);
static bool G_learn = false;
static bool lprune(int x, i64 l, i64 h, int c);
static bool lfail(int c);
static bool prune(int x, i64 l, i64 h, int c) {
  if (G_learn) return lprune(x, l, h, c);
  Store &s = *E.s;
  if (x >= NV) {
    if (h < s.lo[x] || l > s.hi[x]) return true;
    if (C[c].own.empty()) return true;
    return failc(c);
  }
  if (l < s.lo[x]) l = s.lo[x];
  if (h > s.hi[x]) h = s.hi[x];
  if (l > h) return true;
  int ev = s.remove(x, l, h, c);
  if (!ev) return true;
  if (!s.size[x]) return false;
  notify(x, ev);
  return true;
}
static bool failc(int c) {
  if (G_learn) return lfail(c);
  if (C[c].own.empty()) return true;
  int x = C[c].own.back();
  Store &s = *E.s;
  if (vscope[x] < E.olo) {
    s.remove(x, s.lo[x], s.hi[x], c);
    return false;
  }
  return prune(x, s.lo[x], s.hi[x], c);
}
static inline i64 fdiv(i64 a, i64 b) {
  i64 q = a / b;
  if (a % b != 0 && ((a < 0) != (b < 0))) q--;
  return q;
}
static bool le_prop(int ci, const Con &c, i64 cc, int sg) { // sum of sg*a*v <= cc
  Store &s = *E.s;
  i64 mn = 0;
  int n = c.v.size();
  const int *V = c.v.data();
  const i64 *a = c.a.data();
  for (int k = 0; k < n; k++) {
    i64 q = sg * a[k];
    mn += q > 0 ? q * s.lo[V[k]] : q * s.hi[V[k]];
  }
  i64 sl = cc - mn;
  if (sl < 0) return failc(ci);
  for (int k = 0; k < n; k++) {
    i64 q = sg * a[k];
    int x = V[k];
    if (q == 0) continue;
    i64 w = s.hi[x] - s.lo[x];
    if (!w) continue;
    if (q > 0) {
      if (q * w > sl) {
        if (!prune(x, s.lo[x] + sl / q + 1, s.hi[x], ci)) return false;
      }
    } else {
      if (-q * w > sl) {
        if (!prune(x, s.lo[x], s.hi[x] - sl / (-q) - 1, ci)) return false;
      }
    }
  }
  return true;
}
static bool eql_prop(int ci, const Con &c) {
  Store &s = *E.s;
  int n = c.v.size();
  const int *V = c.v.data();
  const i64 *a = c.a.data();
  for (;;) {
    i64 mn = 0, mx = 0;
    for (int k = 0; k < n; k++) {
      i64 q = a[k];
      int x = V[k];
      if (q > 0) {
        mn += q * s.lo[x];
        mx += q * s.hi[x];
      } else {
        mn += q * s.hi[x];
        mx += q * s.lo[x];
      }
    }
    i64 up = c.c - mn, dn = mx - c.c;
    if (up < 0 || dn < 0) return failc(ci);
    bool ch = false;
    for (int k = 0; k < n; k++) {
      i64 q = a[k];
      int x = V[k];
      if (!q) continue;
      i64 w = (i64)s.hi[x] - s.lo[x];
      if (!w) continue;
      i64 aq = q > 0 ? q : -q;
      if (aq * w <= up && aq * w <= dn) continue;
      i32 l0 = s.lo[x], h0 = s.hi[x];
      i64 nh = h0, nl = l0;
      i64 ku = up / aq, kd = dn / aq;
      if (q > 0) {
        if (ku < w) nh = l0 + ku;
        if (kd < w) nl = h0 - kd;
      } else {
        if (ku < w) nl = h0 - ku;
        if (kd < w) nh = l0 + kd;
      }
      if (nh < l0 || nl > h0) {
        return failc(ci);
      }
      if (nh < h0) {
        ch = true;
        if (!prune(x, nh + 1, h0, ci)) return false;
      }
      if (nl > s.hi[x]) {
        return failc(ci);
      }
      if (nl > l0) {
        ch = true;
        if (!prune(x, l0, nl - 1, ci)) return false;
      }
      // running sums
      if (q > 0) {
        i64 dl = q * ((i64)s.lo[x] - l0), dh = q * ((i64)h0 - s.hi[x]);
        up -= dl;
        dn -= dh;
      } else {
        i64 dl = -q * ((i64)h0 - s.hi[x]), dh = -q * ((i64)s.lo[x] - l0);
        up -= dl;
        dn -= dh;
      }
      if (up < 0 || dn < 0) return failc(ci);
    }
    if (!ch) return true;
  }
}
static bool nel_prop(int ci, const Con &c) {
  Store &s = *E.s;
  int n = c.v.size();
  int u = -1;
  i64 sum = 0;
  i64 au = 0;
  for (int k = 0; k < n; k++) {
    int x = c.v[k];
    if (c.a[k] == 0) continue;
    if (s.size[x] != 1) {
      if (u >= 0) return true;
      u = x;
      au = c.a[k];
    } else sum += c.a[k] * s.lo[x];
  }
  if (u < 0) {
    if (sum == c.c) return failc(ci);
    return true;
  }
  i64 d = c.c - sum;
  if (d % au == 0) {
    i64 v = d / au;
    if (s.has(u, v)) return prune(u, v, v, ci);
  }
  return true;
}
static i64 common_lo(const Store &s, int a, int b) {
  i64 v = max(s.lo[a], s.lo[b]);
  for (;;) {
    i64 p = s.next(a, v);
    if (p == Store::NONE) return p;
    i64 q = s.next(b, p);
    if (q == Store::NONE) return q;
    if (q == p) return p;
    v = q;
  }
}
static i64 common_hi(const Store &s, int a, int b) {
  i64 v = min(s.hi[a], s.hi[b]);
  for (;;) {
    i64 p = s.prev(a, v);
    if (p == -Store::NONE) return p;
    i64 q = s.prev(b, p);
    if (q == -Store::NONE) return q;
    if (q == p) return p;
    v = q;
  }
}
static bool eqs_prop(int ci, int a, int b) {
  Store &s = *E.s;
  i64 l = common_lo(s, a, b);
  if (l == Store::NONE) return failc(ci);
  i64 h = common_hi(s, a, b);
  if (s.lo[a] < l && !prune(a, s.lo[a], l - 1, ci)) return false;
  if (s.lo[b] < l && !prune(b, s.lo[b], l - 1, ci)) return false;
  if (s.hi[a] > h && !prune(a, h + 1, s.hi[a], ci)) return false;
  if (s.hi[b] > h && !prune(b, h + 1, s.hi[b], ci)) return false;
  return true;
}
static bool nes_prop(int ci, int a, int b) {
  Store &s = *E.s;
  if (s.size[a] == 1) {
    if (s.has(b, s.lo[a])) return prune(b, s.lo[a], s.lo[a], ci);
  } else if (s.size[b] == 1) {
    if (s.has(a, s.lo[b])) return prune(a, s.lo[b], s.lo[b], ci);
  }
  return true;
}
static bool inset(const vector<i64> &d, i64 v) { return binary_search(d.begin(), d.end(), v); }
static bool setin_pos(int ci, int x, const vector<i64> &d) {
  Store &s = *E.s;
  // smallest member in D(x)
  i64 v = s.lo[x];
  for (;;) {
    auto it = lower_bound(d.begin(), d.end(), v);
    if (it == d.end()) return failc(ci);
    i64 q = s.next(x, *it);
    if (q == Store::NONE) return failc(ci);
    if (q == *it) {
      v = q;
      break;
    }
    v = q;
  }
  if (v > s.lo[x] && !prune(x, s.lo[x], v - 1, ci)) return false;
  v = s.hi[x];
  for (;;) {
    auto it = upper_bound(d.begin(), d.end(), v);
    if (it == d.begin()) return failc(ci);
    --it;
    i64 q = s.prev(x, *it);
    if (q == -Store::NONE) return failc(ci);
    if (q == *it) {
      v = q;
      break;
    }
    v = q;
  }
  if (v < s.hi[x] && !prune(x, v + 1, s.hi[x], ci)) return false;
  return true;
}
static bool setin_neg(int ci, int x, const vector<i64> &d) {
  Store &s = *E.s;
  i64 v = s.lo[x];
  while (v != Store::NONE && inset(d, v)) v = s.next(x, v + 1);
  if (v == Store::NONE) return failc(ci);
  if (v > s.lo[x] && !prune(x, s.lo[x], v - 1, ci)) return false;
  v = s.hi[x];
  while (inset(d, v)) v = s.prev(x, v - 1);
  if (v < s.hi[x] && !prune(x, v + 1, s.hi[x], ci)) return false;
  return true;
}
static bool clause_pos(int ci, const Con &c) {
  Store &s = *E.s;
  int u = -1;
  bool up = false;
  int n = c.v.size();
  for (int k = 0; k < n; k++) {
    int x = c.v[k];
    bool p = k < c.npos;
    if (s.size[x] == 1) {
      if ((s.lo[x] == 1) == p) {
        if (hint[2 * ci] >= 0) hint[2 * ci] = x * 2 + p;
        return true;
      }
    } else {
      if (u >= 0) {
        if (hint[2 * ci] >= 0) {
          hint[2 * ci] = u * 2 + up;
          hint[2 * ci + 1] = x * 2 + p;
        }
        return true;
      }
      u = x;
      up = p;
    }
  }
  if (u < 0) return failc(ci);
  return prune(u, up ? 0 : 1, up ? 0 : 1, ci);
}
static bool clause_neg(int ci, const Con &c) {
  Store &s = *E.s;
  int n = c.v.size();
  for (int k = 0; k < n; k++) {
    int x = c.v[k];
    i64 t = k < c.npos ? 1 : 0;
    if (s.has(x, t) && !prune(x, t, t, ci)) return false;
  }
  return true;
}
// base truth: 1 entailed, -1 refuted, 0 neither
static int base_state(const Con &c, const Store &s) {
  switch (c.k) {
  case LE: {
    i64 mn = 0, mx = 0;
    for (size_t k = 0; k < c.v.size(); k++) {
      i64 p = c.a[k] * s.lo[c.v[k]], q = c.a[k] * s.hi[c.v[k]];
      mn += min(p, q);
      mx += max(p, q);
    }
    return mn > c.c ? -1 : mx <= c.c ? 1 : 0;
  }
  case EQL: {
    i64 mn = 0, mx = 0;
    for (size_t k = 0; k < c.v.size(); k++) {
      i64 p = c.a[k] * s.lo[c.v[k]], q = c.a[k] * s.hi[c.v[k]];
      mn += min(p, q);
      mx += max(p, q);
    }
    return (mn > c.c || mx < c.c) ? -1 : (mn == c.c && mx == c.c) ? 1 : 0;
  }
  case EQS: {
    int a = c.v[0], b = c.v[1];
    if (s.size[a] == 1 && s.size[b] == 1) return s.lo[a] == s.lo[b] ? 1 : -1;
    return common_lo(s, a, b) == Store::NONE ? -1 : 0;
  }
  case SETIN: {
    int x = c.v[0];
    bool any = false, all = true;
    for (i64 v = s.lo[x]; v != Store::NONE; v = s.next(x, v + 1)) {
      if (inset(c.data, v)) any = true;
      else all = false;
      if (any && !all) return 0;
    }
    return any ? 1 : -1;
  }
  case CLAUSE: {
    bool allf = true;
    for (size_t k = 0; k < c.v.size(); k++) {
      int x = c.v[k];
      if (s.size[x] != 1) allf = false;
      else if ((s.lo[x] == 1) == ((int)k < c.npos)) return 1;
    }
    return allf ? -1 : 0;
  }
  default:
    return 0;
  }
}
static inline i64 quo(i64 a, i64 b) { return a / b; }
static bool arith_ref(Kind k, const i64 *l, const i64 *h) {
  switch (k) {
  case TIMES: {
    i64 p = l[0] * l[1], q = l[0] * h[1], r = h[0] * l[1], t = h[0] * h[1];
    i64 mn = min(min(p, q), min(r, t)), mx = max(max(p, q), max(r, t));
    return mx < l[2] || mn > h[2];
  }
  case ABS_: {
    i64 a, b;
    if (l[0] >= 0) {
      a = l[0];
      b = h[0];
    } else if (h[0] <= 0) {
      a = -h[0];
      b = -l[0];
    } else {
      a = 0;
      b = max(-l[0], h[0]);
    }
    return b < l[1] || a > h[1];
  }
  case MIN2: {
    i64 a = min(l[0], l[1]), b = min(h[0], h[1]);
    return b < l[2] || a > h[2];
  }
  case MAX2: {
    i64 a = max(l[0], l[1]), b = max(h[0], h[1]);
    return b < l[2] || a > h[2];
  }
  case DIV: {
    if (!l[1] && !h[1]) return true;
    i64 mn = INT64_MAX, mx = INT64_MIN;
    for (int t = 0; t < 2; t++) {
      i64 a = t ? max<i64>(l[1], 1) : l[1], b = t ? h[1] : min<i64>(h[1], -1);
      if (a <= b) {
        for (i64 p : {l[0], h[0]})
          for (i64 q : {a, b}) {
            i64 z = quo(p, q);
            mn = min(mn, z);
            mx = max(mx, z);
          }
      }
    }
    return mx < l[2] || mn > h[2];
  }
  case MOD: {
    if (!l[1] && !h[1]) return true;
    i64 a, b;
    if (l[0] == h[0] && l[1] == h[1]) {
      a = b = l[0] % l[1];
    } else {
      i64 m = max(llabs(l[1]), llabs(h[1])) - 1;
      a = l[0] >= 0 ? 0 : max(l[0], -m);
      b = h[0] <= 0 ? 0 : min(h[0], m);
    }
    return b < l[2] || a > h[2];
  }
  default:
    return false;
  }
}
static bool arith_test(const Con &c, const Store &s, int x, i64 lo, i64 hi) {
  i64 l[3], h[3];
  for (size_t k = 0; k < c.v.size(); k++) {
    int y = c.v[k];
    if (y == x) {
      l[k] = lo;
      h[k] = hi;
    } else {
      l[k] = s.lo[y];
      h[k] = s.hi[y];
    }
  }
  return arith_ref(c.k, l, h);
}
static bool arith_prop(int ci, const Con &c) {
  Store &s = *E.s;
  if (c.own.empty()) return true;
  for (;;) {
    u64 before = s.changes;
    if (arith_test(c, s, -1, 0, 0)) return failc(ci);
    for (int x : c.own) {
      if (s.size[x] == 1) continue;
      // low end
      while (arith_test(c, s, x, s.lo[x], s.lo[x])) {
        i64 l = s.lo[x], g = l, step = 1, bad = (i64)s.hi[x] + 1; // largest g with [l..g] refuted
        while (g < s.hi[x]) {
          i64 t = min<i64>(g + step, s.hi[x]);
          i64 th = s.prev(x, t);
          if (arith_test(c, s, x, l, th)) {
            g = t;
            step *= 2;
          } else {
            bad = t;
            break;
          }
        }
        while (bad - g > 1) {
          i64 m = g + (bad - g) / 2;
          if (arith_test(c, s, x, l, s.prev(x, m))) g = m;
          else bad = m;
        }
        if (!prune(x, l, g, ci)) return false;
      }
      while (arith_test(c, s, x, s.hi[x], s.hi[x])) {
        i64 h = s.hi[x], g = h, step = 1, bad = (i64)s.lo[x] - 1;
        while (g > s.lo[x]) {
          i64 t = max<i64>(g - step, s.lo[x]);
          i64 tl = s.next(x, t);
          if (arith_test(c, s, x, tl, h)) {
            g = t;
            step *= 2;
          } else {
            bad = t;
            break;
          }
        }
        while (g - bad > 1) {
          i64 m = bad + (g - bad) / 2;
          if (arith_test(c, s, x, s.next(x, m), h)) g = m;
          else bad = m;
        }
        if (!prune(x, g, h, ci)) return false;
      }
    }
    if (s.changes == before) return true;
  }
}
static bool and_prop(int ci, const Con &c, bool isor) {
  Store &s = *E.s;
  int r = c.v.back();
  int n = c.v.size() - 1;
  // or: by duality; bit b of x: "neutral" value nv (1 for and), "ruling" value rv (0 for and)
  i64 nv = isor ? 0 : 1, rv = 1 - nv;
  int free = -1, nf = 0;
  bool ruled = false;
  for (int k = 0; k < n; k++) {
    int x = c.v[k];
    if (s.size[x] == 1) {
      if (s.lo[x] == rv) ruled = true;
    } else {
      free = x;
      nf++;
    }
  }
  if (ruled) {
    if (s.has(r, nv)) return prune(r, nv, nv, ci);
    return true;
  }
  if (nf == 0) {
    if (s.has(r, rv)) return prune(r, rv, rv, ci);
    return true;
  }
  if (s.size[r] == 1) {
    if (s.lo[r] == nv) {
      for (int k = 0; k < n; k++)
        if (s.size[c.v[k]] != 1 && !prune(c.v[k], rv, rv, ci)) return false;
    } else if (nf == 1) return prune(free, nv, nv, ci);
  }
  return true;
}
static bool xor_prop(int ci, const Con &c) {
  Store &s = *E.s;
  int u = -1;
  int sum = 0;
  for (int x : c.v) {
    if (s.size[x] != 1) {
      if (u >= 0) return true;
      u = x;
    } else sum += s.lo[x];
  }
  if (u < 0) {
    if (sum % 2 == 0) return failc(ci);
    return true;
  }
  i64 bad = sum % 2 == 0 ? 0 : 1;
  return prune(u, bad, bad, ci);
}
static bool elc_prop(int ci, const Con &c) {
  Store &s = *E.s;
  int b = c.v[0], z = c.v[1];
  i64 n = c.data.size();
  const i64 *d = c.data.data();
  i64 v = s.next(b, 1);
  while (v <= n && !s.has(z, d[v - 1])) v = s.next(b, v + 1);
  if (v > n) return failc(ci);
  if (v > s.lo[b] && !prune(b, s.lo[b], v - 1, ci)) return false;
  v = s.prev(b, n);
  while (!s.has(z, d[v - 1])) v = s.prev(b, v - 1);
  if (v < s.hi[b] && !prune(b, v + 1, s.hi[b], ci)) return false;
  i64 mn = INT64_MAX, mx = INT64_MIN;
  i64 hb = s.hi[b];
  for (v = s.lo[b]; v <= hb; v = s.next(b, v + 1)) {
    i64 q = d[v - 1];
    if (s.has(z, q)) {
      if (q < mn) mn = q;
      if (q > mx) mx = q;
      if (mn == s.lo[z] && mx == s.hi[z]) break;
    }
  }
  if (mn > s.lo[z] && !prune(z, s.lo[z], mn - 1, ci)) return false;
  if (mx < s.hi[z] && !prune(z, mx + 1, s.hi[z], ci)) return false;
  return true;
}
static bool elv_prop(int ci, const Con &c) {
  Store &s = *E.s;
  int b = c.v[0], z = c.v[1];
  i64 n = c.v.size() - 2;
  const int *d = c.v.data() + 2;
  for (;;) {
    u64 before = s.changes;
    auto sup = [&](i64 k) { return common_lo(s, d[k - 1], z) != Store::NONE; };
    i64 v = s.next(b, 1);
    while (v <= n && !sup(v)) v = s.next(b, v + 1);
    if (v > n) return failc(ci);
    if (v > s.lo[b] && !prune(b, s.lo[b], v - 1, ci)) return false;
    v = s.prev(b, n);
    while (!sup(v)) v = s.prev(b, v - 1);
    if (v < s.hi[b] && !prune(b, v + 1, s.hi[b], ci)) return false;
    i64 mn = Store::NONE, mx = -Store::NONE;
    i64 hb = s.hi[b];
    for (v = s.lo[b]; v <= hb; v = s.next(b, v + 1)) {
      i64 p = common_lo(s, d[v - 1], z);
      if (p != Store::NONE) {
        i64 q = common_hi(s, d[v - 1], z);
        mn = min(mn, p);
        mx = max(mx, q);
        if (mn == s.lo[z] && mx == s.hi[z]) break;
      }
    }
    if (mn > s.lo[z] && !prune(z, s.lo[z], mn - 1, ci)) return false;
    if (mx < s.hi[z] && !prune(z, mx + 1, s.hi[z], ci)) return false;
    if (s.size[b] == 1) {
      int y = d[s.lo[b] - 1];
      i64 l = common_lo(s, y, z), h = common_hi(s, y, z);
      if (l == Store::NONE) return failc(ci);
      if (s.lo[y] < l && !prune(y, s.lo[y], l - 1, ci)) return false;
      if (s.hi[y] > h && !prune(y, h + 1, s.hi[y], ci)) return false;
    }
    if (s.changes == before) return true;
  }
}
static bool amin_prop(int ci, const Con &c, bool mx) {
  Store &s = *E.s;
  int m = c.v[0];
  int n = c.v.size() - 1;
  const int *d = c.v.data() + 1;
  for (;;) {
    u64 before = s.changes;
    if (!mx) {
      i64 l = INT64_MAX, h = INT64_MAX;
      for (int k = 0; k < n; k++) {
        l = min<i64>(l, s.lo[d[k]]);
        h = min<i64>(h, s.hi[d[k]]);
      }
      if (s.hi[m] < l || s.lo[m] > h) return failc(ci);
      if (s.lo[m] < l && !prune(m, s.lo[m], l - 1, ci)) return false;
      if (s.hi[m] > h && !prune(m, h + 1, s.hi[m], ci)) return false;
      int cand = -1, nc = 0;
      for (int k = 0; k < n; k++) {
        int x = d[k];
        if (s.lo[x] < s.lo[m] && !prune(x, s.lo[x], (i64)s.lo[m] - 1, ci)) return false;
        if (s.lo[x] <= s.hi[m]) {
          nc++;
          cand = x;
        }
      }
      if (nc == 0) return failc(ci);
      if (nc == 1 && s.hi[cand] > s.hi[m] && !prune(cand, (i64)s.hi[m] + 1, s.hi[cand], ci)) return false;
    } else {
      i64 l = INT64_MIN, h = INT64_MIN;
      for (int k = 0; k < n; k++) {
        l = max<i64>(l, s.lo[d[k]]);
        h = max<i64>(h, s.hi[d[k]]);
      }
      if (s.hi[m] < l || s.lo[m] > h) return failc(ci);
      if (s.lo[m] < l && !prune(m, s.lo[m], l - 1, ci)) return false;
      if (s.hi[m] > h && !prune(m, h + 1, s.hi[m], ci)) return false;
      int cand = -1, nc = 0;
      for (int k = 0; k < n; k++) {
        int x = d[k];
        if (s.hi[x] > s.hi[m] && !prune(x, (i64)s.hi[m] + 1, s.hi[x], ci)) return false;
        if (s.hi[x] >= s.lo[m]) {
          nc++;
          cand = x;
        }
      }
      if (nc == 0) return failc(ci);
      if (nc == 1 && s.lo[cand] < s.lo[m] && !prune(cand, s.lo[cand], (i64)s.lo[m] - 1, ci)) return false;
    }
    if (s.changes == before) return true;
  }
}
static bool alldiff_prop(int ci, const Con &c) {
  Store &s = *E.s;
  int n = c.v.size();
  static vector<int> by;
  static vector<i32> lo, hi, los;
  by.assign(c.v.begin(), c.v.end());
  for (;;) {
    bool ch = false;
    for (int k = 1; k < n; k++) {
      int y = by[k];
      i32 h = s.hi[y];
      int j = k;
      while (j > 0 && s.hi[by[j - 1]] > h) {
        by[j] = by[j - 1];
        j--;
      }
      by[j] = y;
    }
    lo.resize(n);
    hi.resize(n);
    for (int k = 0; k < n; k++) {
      lo[k] = s.lo[by[k]];
      hi[k] = s.hi[by[k]];
    }
    los.assign(lo.begin(), lo.end());
    sort(los.begin(), los.end());
    los.erase(unique(los.begin(), los.end()), los.end());
    for (int q = (int)los.size() - 1; q >= 0; q--) {
      i32 l = los[q];
      int cnt = 0;
      for (int k = 0; k < n; k++) {
        if (lo[k] >= l) cnt++;
        else continue;
        i32 h = hi[k];
        if (cnt < h - l + 1) continue;
        if (k + 1 < n && hi[k + 1] == h) { // count the rest with this hi
          int j = k + 1;
          int c2 = cnt;
          while (j < n && hi[j] == h) {
            if (lo[j] >= l) c2++;
            j++;
          }
          if (c2 > h - l + 1) return failc(ci);
        } else if (cnt > h - l + 1) return failc(ci);
        for (int j = 0; j < n; j++) {
          int y = by[j];
          i32 yl = s.lo[y], yh = s.hi[y];
          if ((lo[j] >= l && hi[j] <= h) || yh < l || yl > h) continue;
          if (yl >= l || yh <= h) {
            if (!prune(y, l, h, ci)) return false;
            ch = true;
          }
        }
      }
    }
    if (!ch) return true;
  }
}
static bool table_prop(int ci, const Con &c) {
  Store &s = *E.s;
  int w = c.v.size();
  size_t rows = c.data.size() / w;
  static vector<i64> mn, mx;
  mn.assign(w, INT64_MAX);
  mx.assign(w, INT64_MIN);
  bool any = false;
  for (size_t r = 0; r < rows; r++) {
    const i64 *d = &c.data[r * w];
    bool ok = true;
    for (int j = 0; j < w; j++)
      if (!s.has(c.v[j], d[j])) {
        ok = false;
        break;
      }
    if (ok) {
      any = true;
      for (int j = 0; j < w; j++) {
        if (d[j] < mn[j]) mn[j] = d[j];
        if (d[j] > mx[j]) mx[j] = d[j];
      }
    }
  }
  if (!any) return failc(ci);
  for (int j = 0; j < w; j++) {
    int x = c.v[j];
    if (s.lo[x] < mn[j] && !prune(x, s.lo[x], mn[j] - 1, ci)) return false;
    if (s.hi[x] > mx[j] && !prune(x, mx[j] + 1, s.hi[x], ci)) return false;
  }
  return true;
}
// the table of part C on the normal forms
static bool refuted_now(const Con &c, const Store &s) {
  if (c.k <= CLAUSE) {
    int b = base_state(c, s);
    if (c.r >= 0) {
      int r = c.r;
      bool v1 = s.has(r, c.rneg ? 0 : 1), v0 = s.has(r, c.rneg ? 1 : 0); // v1: r says base holds
      return (!v1 || b == -1) && (!v0 || b == 1);
    }
    return c.neg ? b == 1 : b == -1;
  }
  switch (c.k) {
  case AND_:
  case OR_: {
    bool isor = c.k == OR_;
    int n = c.v.size() - 1;
    i64 lo = isor ? 0 : 1, hi = lo;
    for (int k = 0; k < n; k++) {
      if (isor) {
        lo = max<i64>(lo, s.lo[c.v[k]]);
        hi = max<i64>(hi, s.hi[c.v[k]]);
      } else {
        lo = min<i64>(lo, s.lo[c.v[k]]);
        hi = min<i64>(hi, s.hi[c.v[k]]);
      }
    }
    int r = c.v.back();
    for (i64 v = 0; v < 2; v++)
      if (s.has(r, v) && lo <= v && v <= hi) return false;
    return true;
  }
  case XOR_: {
    int sum = 0;
    for (int x : c.v) {
      if (s.size[x] != 1) return false;
      sum += s.lo[x];
    }
    return sum % 2 == 0;
  }
  case ELC: {
    i64 n = c.data.size();
    for (i64 v = s.next(c.v[0], 1); v <= n; v = s.next(c.v[0], v + 1))
      if (s.has(c.v[1], c.data[v - 1])) return false;
    return true;
  }
  case ELV: {
    i64 n = c.v.size() - 2;
    for (i64 v = s.next(c.v[0], 1); v <= n; v = s.next(c.v[0], v + 1))
      if (common_lo(s, c.v[v + 1], c.v[1]) != Store::NONE) return false;
    return true;
  }
  case MIN_: {
    i64 l = INT64_MAX, h = l;
    for (size_t k = 1; k < c.v.size(); k++) {
      l = min<i64>(l, s.lo[c.v[k]]);
      h = min<i64>(h, s.hi[c.v[k]]);
    }
    return h < s.lo[c.v[0]] || l > s.hi[c.v[0]];
  }
  case MAX_: {
    i64 l = INT64_MIN, h = l;
    for (size_t k = 1; k < c.v.size(); k++) {
      l = max<i64>(l, s.lo[c.v[k]]);
      h = max<i64>(h, s.hi[c.v[k]]);
    }
    return h < s.lo[c.v[0]] || l > s.hi[c.v[0]];
  }
  case ALLDIFF: {
    for (int a : c.v)
      for (int b : c.v) {
        i64 l = s.lo[a], h = s.hi[b];
        if (l > h) continue;
        i64 n = 0;
        for (int x : c.v)
          if (s.lo[x] >= l && s.hi[x] <= h) n++;
        if (n > h - l + 1) return true;
      }
    return false;
  }
  case TABLE: {
    int w = c.v.size();
    size_t rows = c.data.size() / w;
    for (size_t r = 0; r < rows; r++) {
      bool ok = true;
      for (int j = 0; j < w && ok; j++) ok = s.has(c.v[j], c.data[r * w + j]);
      if (ok) return false;
    }
    return true;
  }
  default:
    return arith_test(c, s, -1, 0, 0);
  }
}
static bool generic_prop(int ci, const Con &c) {
  Store &s = *E.s;
  for (;;) {
    bool any = false;
    for (int x : c.own)
      for (int end = 0; end < 2; end++)
        for (;;) {
          i32 v = end ? s.hi[x] : s.lo[x];
          size_t m = s.tr.size();
          s.assign(x, v);
          bool no = refuted_now(c, s);
          s.undo(m);
          if (!no) break;
          any = true;
          if (!prune(x, v, v, ci)) return false;
        }
    if (!any) return true;
  }
}
static bool filter(int ci) {
  const Con &c = C[ci];
  if (c.generic) return generic_prop(ci, c);
  if (c.k <= CLAUSE) {
    bool pos = !c.neg;
    if (c.r >= 0) {
      Store &s = *E.s;
      if (s.size[c.r] != 1) {
        int b = base_state(c, s);
        if (b) {
          i64 v = (b == 1) != c.rneg ? 0 : 1;
          return prune(c.r, v, v, ci);
        }
        return true;
      }
      pos = (s.lo[c.r] == 1) != c.rneg;
    }
    switch (c.k) {
    case LE:
      return pos ? le_prop(ci, c, c.c, 1) : le_prop(ci, c, -c.c - 1, -1);
    case EQL:
      return pos ? eql_prop(ci, c) : nel_prop(ci, c);
    case EQS:
      return pos ? eqs_prop(ci, c.v[0], c.v[1]) : nes_prop(ci, c.v[0], c.v[1]);
    case SETIN:
      return pos ? setin_pos(ci, c.v[0], c.data) : setin_neg(ci, c.v[0], c.data);
    default:
      return pos ? clause_pos(ci, c) : clause_neg(ci, c);
    }
  }
  switch (c.k) {
  case AND_:
    return and_prop(ci, c, false);
  case OR_:
    return and_prop(ci, c, true);
  case XOR_:
    return xor_prop(ci, c);
  case ELC:
    return elc_prop(ci, c);
  case ELV:
    return elv_prop(ci, c);
  case MIN_:
    return amin_prop(ci, c, false);
  case MAX_:
    return amin_prop(ci, c, true);
  case ALLDIFF:
    return alldiff_prop(ci, c);
  case TABLE:
    return table_prop(ci, c);
  default:
    return arith_prop(ci, c);
  }
}
// ------------------------------------------------------------ parser
struct Tok {
  int t;
  string s;
  i64 v;
}; // 0 word 1 number 2 sign 3 end
static vector<Tok> T;
static size_t tp;
static void die(const char *m) {
  fprintf(stderr, "error: %s\n", m);
  exit(3);
}
static void lex(const string &x) {
  size_t i = 0, n = x.size();
  while (i < n) {
    char c = x[i];
    if (isspace((unsigned char)c)) {
      i++;
      continue;
    }
    if (c == '%') {
      while (i < n && x[i] != '\n') i++;
      continue;
    }
    if (isalpha((unsigned char)c) || c == '_') {
      size_t j = i;
      while (j < n && (isalnum((unsigned char)x[j]) || x[j] == '_')) j++;
      T.push_back({0, x.substr(i, j - i), 0});
      i = j;
    } else if (isdigit((unsigned char)c) || c == '-') {
      size_t j = i + 1;
      while (j < n && isdigit((unsigned char)x[j])) j++;
      T.push_back({1, "", atoll(x.substr(i, j - i).c_str())});
      i = j;
    } else if (c == '.' && i + 1 < n && x[i + 1] == '.') {
      T.push_back({2, "..", 0});
      i += 2;
    } else {
      T.push_back({2, string(1, c), 0});
      i++;
    }
  }
  T.push_back({3, "", 0});
}
static bool sign(const char *s) {
  if (T[tp].t == 2 && T[tp].s == s) {
    tp++;
    return true;
  }
  return false;
}
static void need(const char *s) {
  if (!sign(s)) die(s);
}
static bool word(const char *s) {
  if (T[tp].t == 0 && T[tp].s == s) {
    tp++;
    return true;
  }
  return false;
}
struct Arg {
  int t;
  string name;
  i64 v;
  vector<Arg> items;
  i64 l, h;
  vector<i64> mem;
}; // 0 name 1 number 2 array 3 range 4 list
struct RawCon {
  int owner;
  string pred;
  vector<Arg> args;
};
static unordered_map<string, int> varid, aggid;
static vector<RawCon> raw;
static Arg one() {
  Arg a;
  if (T[tp].t == 1) {
    a.t = 1;
    a.v = T[tp++].v;
  } else if (T[tp].t == 0) {
    if (T[tp].s == "true" || T[tp].s == "false") {
      a.t = 1;
      a.v = T[tp].s == "true";
      tp++;
    } else {
      a.t = 0;
      a.name = T[tp++].s;
    }
  } else die("arg");
  return a;
}
static Arg parg() {
  Arg a;
  if (sign("[")) {
    a.t = 2;
    if (!sign("]")) {
      do a.items.push_back(one());
      while (sign(","));
      need("]");
    }
    return a;
  }
  if (sign("{")) {
    a.t = 4;
    if (!sign("}")) {
      do a.mem.push_back(T[tp++].v);
      while (sign(","));
      need("}");
    }
    sort(a.mem.begin(), a.mem.end());
    a.mem.erase(unique(a.mem.begin(), a.mem.end()), a.mem.end());
    return a;
  }
  a = one();
  if (a.t == 1 && sign("..")) {
    a.t = 3;
    a.l = a.v;
    a.h = T[tp++].v;
  }
  return a;
}
static map<i64, int> consts;
static vector<i64> constv;
static void parse() {
  tp = 0;
  vector<string> vn;
  for (;;) {
    if (word("goal")) {
      need(";");
      while (word("constraint")) {
        RawCon r;
        r.owner = (int)S.size();
        r.pred = T[tp++].s;
        need("(");
        if (!sign(")")) {
          do r.args.push_back(parg());
          while (sign(","));
          need(")");
        }
        need(";");
        raw.push_back(r);
      }
      if (!word("solve")) die("solve");
      need(";");
      break;
    }
    if (T[tp].t == 0 && (T[tp].s == "exists" || T[tp].s == "forall")) {
      Scope s;
      s.ex = T[tp++].s == "exists";
      if (s.ex) {
        if (word("minimize")) {
          s.cond = true;
          s.tname = T[tp++].s;
        } else if (word("maximize")) {
          s.cond = true;
          s.mx = true;
          s.tname = T[tp++].s;
        }
      }
      need(";");
      S.push_back(s);
      continue;
    }
    int i = (int)S.size() - 1;
    if (word("var")) {
      i32 l = 0, h = 1;
      vector<i32> lst;
      bool b = false;
      if (word("bool")) b = true;
      else {
        Arg a = parg();
        if (a.t == 3) {
          l = a.l;
          h = a.h;
        } else if (a.t == 4) {
          for (i64 v : a.mem) lst.push_back(v);
          l = lst[0];
          h = lst.back();
          if ((i64)lst.size() == (i64)h - l + 1) lst.clear();
        } else die("domain");
      }
      need(":");
      string nm = T[tp++].s;
      need(";");
      varid[nm] = dlo.size();
      dlo.push_back(l);
      dhi.push_back(h);
      dlist.push_back(lst);
      vscope.push_back(i);
      vbool.push_back(b);
      S[i].vars.push_back(dlo.size() - 1);
      continue;
    }
    if (word("aggregate")) {
      string nm = T[tp++].s;
      need("=");
      Agg a;
      a.scope = i;
      string f = T[tp++].s;
      a.fold = f == "sum" ? 0 : f == "least" ? 1 : 2;
      need("(");
      a.tname = T[tp++].s;
      need(")");
      if (a.fold) {
        if (!word("else")) die("else");
        a.els = T[tp++].v;
      }
      need(";");
      aggid[nm] = A.size();
      S[i].aggs.push_back(A.size());
      A.push_back(a);
      continue;
    }
    if (word("constraint")) {
      RawCon r;
      r.owner = i;
      r.pred = T[tp++].s;
      need("(");
      if (!sign(")")) {
        do r.args.push_back(parg());
        while (sign(","));
        need(")");
      }
      need(";");
      raw.push_back(r);
      continue;
    }
    die("syntax");
  }
  NV = dlo.size();
  N = S.size();
  for (auto &s : S)
    if (s.cond) {
      if (varid.count(s.tname)) {
        s.tagg = false;
        s.tid = varid[s.tname];
      } else {
        s.tagg = true;
        s.tid = aggid.at(s.tname);
      }
    }
  for (auto &a : A) {
    if (varid.count(a.tname)) {
      a.tagg = false;
      a.tid = varid[a.tname];
    } else {
      a.tagg = true;
      a.tid = aggid.at(a.tname);
    }
  }
}
static int term(const Arg &a) {
  if (a.t == 0) return varid.at(a.name);
  auto it = consts.find(a.v);
  if (it != consts.end()) return NV + it->second;
  int k = constv.size();
  consts[a.v] = k;
  constv.push_back(a.v);
  return NV + k;
}
static void build_cons() {
  for (auto &r : raw) {
    Con c;
    c.owner = r.owner;
    string p = r.pred;
    bool reif = p.size() > 5 && p.substr(p.size() - 5) == "_reif";
    if (reif) p = p.substr(0, p.size() - 5);
    auto &a = r.args;
    auto bin = [&](i64 cc, Kind k) {
      c.k = k;
      c.v = {term(a[0]), term(a[1])};
      c.a = {1, -1};
      c.c = cc;
    };
    auto arr = [&](const Arg &x) {
      for (auto &y : x.items) c.v.push_back(term(y));
    };
    if (p == "int_eq" || p == "bool_eq" || p == "bool2int") bin(0, EQS);
    else if (p == "int_ne" || p == "bool_not") {
      bin(0, EQS);
      c.neg = true;
    } else if (p == "int_le" || p == "bool_le") bin(0, LE);
    else if (p == "int_lt" || p == "bool_lt") bin(-1, LE);
    else if (p == "int_lin_eq" || p == "int_lin_ne" || p == "int_lin_le") {
      c.k = p == "int_lin_le" ? LE : EQL;
      c.neg = p == "int_lin_ne";
      for (auto &y : a[0].items) c.a.push_back(y.v);
      arr(a[1]);
      c.c = a[2].v;
    } else if (p == "int_plus") {
      c.k = EQL;
      c.v = {term(a[0]), term(a[1]), term(a[2])};
      c.a = {1, 1, -1};
      c.c = 0;
    } else if (p == "int_times" || p == "int_min" || p == "int_max" || p == "int_div" || p == "int_mod") {
      c.k = p == "int_times" ? TIMES : p == "int_min" ? MIN2 : p == "int_max" ? MAX2 : p == "int_div" ? DIV : MOD;
      c.v = {term(a[0]), term(a[1]), term(a[2])};
    } else if (p == "int_abs") {
      c.k = ABS_;
      c.v = {term(a[0]), term(a[1])};
    } else if (p == "array_int_element" || p == "array_bool_element") {
      c.k = ELC;
      c.v = {term(a[0]), term(a[2])};
      for (auto &y : a[1].items) c.data.push_back(y.v);
    } else if (p == "array_var_int_element" || p == "array_var_bool_element") {
      c.k = ELV;
      c.v = {term(a[0]), term(a[2])};
      arr(a[1]);
    } else if (p == "array_int_minimum" || p == "array_int_maximum") {
      c.k = p == "array_int_minimum" ? MIN_ : MAX_;
      c.v = {term(a[0])};
      arr(a[1]);
    } else if (p == "set_in") {
      c.k = SETIN;
      c.v = {term(a[0])};
      if (a[1].t == 3)
        for (i64 v = a[1].l; v <= a[1].h; v++) c.data.push_back(v);
      else c.data = a[1].mem;
    } else if (p == "bool_and" || p == "bool_or") {
      c.k = p == "bool_and" ? AND_ : OR_;
      c.v = {term(a[0]), term(a[1]), term(a[2])};
    } else if (p == "bool_xor") {
      c.k = XOR_;
      Arg o;
      o.t = 1;
      o.v = 1;
      c.v = {term(a[0]), term(a[1]), term(a[2]), term(o)};
    } else if (p == "array_bool_and" || p == "array_bool_or") {
      c.k = p == "array_bool_and" ? AND_ : OR_;
      arr(a[0]);
      c.v.push_back(term(a[1]));
    } else if (p == "array_bool_xor") {
      c.k = XOR_;
      arr(a[0]);
    } else if (p == "bool_clause") {
      c.k = CLAUSE;
      arr(a[0]);
      c.npos = c.v.size();
      arr(a[1]);
    } else if (p == "all_different_int") {
      c.k = ALLDIFF;
      arr(a[0]);
    } else if (p == "table_int") {
      c.k = TABLE;
      arr(a[0]);
      for (auto &y : a[1].items) c.data.push_back(y.v);
    } else die(p.c_str());
    if (reif) {
      c.r = term(a.back());
      if (c.neg) {
        c.neg = false;
        c.rneg = true;
      }
    }
    vector<int> all = c.v;
    if (c.r >= 0) all.push_back(c.r);
    vector<int> own;
    for (int x : all)
      if (x < NV) own.push_back(x);
    size_t n = own.size();
    sort(own.begin(), own.end());
    own.erase(unique(own.begin(), own.end()), own.end());
    c.own = own;
    bool arith = c.k == TIMES || c.k == MIN2 || c.k == MAX2 || c.k == DIV || c.k == MOD || c.k == ABS_;
    if (own.size() != n && !arith) c.generic = true;
    c.prio = (c.k == ALLDIFF || c.k == TABLE || c.generic)  ? 3
             : (c.k == ELC || c.k == ELV || c.v.size() > 6) ? 2
             : (c.v.size() > 3)                             ? 1
                                                            : 0;
    if (c.k == CLAUSE) c.prio = 0;
    C.push_back(c);
  }
  NT = NV + constv.size();
  for (i64 v : constv) {
    dlo.push_back(v);
    dhi.push_back(v);
  }
  watch.resize(NV);
  inq.assign(C.size(), 0);
  hint.assign(2 * C.size(), -1);
  for (size_t k = 0; k < C.size(); k++)
    if (C[k].k == CLAUSE && C[k].r < 0 && !C[k].generic && C[k].v.size() >= 2) {
      for (int j = 0; j < 2; j++) hint[2 * k + j] = C[k].v[j] * 2 + (j < C[k].npos);
    }
  for (size_t k = 0; k < C.size(); k++) {
    Con &c = C[k];
    if (c.owner == N) goalCons.push_back(k);
    else S[c.owner].cons.push_back(k);
    for (int x : c.own) {
      int m = 0;
      if (c.generic) m = 15;
      else if (c.r >= 0 || (c.k == EQL && !c.neg) || c.k == ALLDIFF || c.k == MIN_ || c.k == MAX_) m = 7;
      else if (c.k == LE) {
        for (size_t j = 0; j < c.v.size(); j++)
          if (c.v[j] == x) m |= c.a[j] > 0 ? 1 : 2;
      } else if (c.neg || c.k == XOR_) m = 4;
      else if (c.k == CLAUSE) {
        for (size_t j = 0; j < c.v.size(); j++)
          if (c.v[j] == x) m |= (int)j < c.npos ? 2 : 1;
      } else if (c.k == TIMES || c.k == MIN2 || c.k == MAX2 || c.k == DIV || c.k == MOD || c.k == ABS_) m = 7;
      else m = 15;
      if (c.r >= 0 && (c.k == EQS || c.k == SETIN)) m = 15;
      watch[x].push_back({(int)k, (short)m, (short)c.owner});
    }
  }
}
// ------------------------------------------------------------ learning search
static Store M;
struct St {
  int x;
  i32 l, h;
  bool keep;
  int reason;
  int lev;
  int prev;
}; // reason: -1 decision, 2c constraint, 2n+1 lemma; keep: all but l..h gone
static vector<St> P;
static vector<int> lastS;
static vector<size_t> lvP, lvM;
static vector<int> decVar; // per level from 1
static vector<int> vside, cside;
static vector<char> active_;
static int cur;
static bool anyRestr;
static vector<int> byLev[2][70];
static vector<char> restr; // scope has own constraints
struct Lt {
  int x;
  i32 l, h;
  int ex;
};
static vector<vector<pair<i32, i32>>> pool;
struct Item {
  char op;
  int x;
  i32 l, h;
  int ref;
};
struct Sm {
  int c;
  i64 l, h;
};
static bool F_sum = true;
static const i64 BIG = (i64)1 << 60;
struct Lem {
  int kind, lev;
  vector<Sm> sm;
  vector<Lt> t;
  int w0 = 0, w1 = 0;
  bool dead = false;
  float act = 0;
  vector<Item> pf;
  int lbd = 0;
};
struct Wt {
  int n, p;
  i32 l, h;
  int bx;
  i32 bl, bh;
};
static vector<Lem *> LM;
static vector<vector<Wt>> wl;
static vector<int> lq;
static vector<char> inlq;
struct Conf {
  int kind, type, id;
  vector<pair<int, i32>> ch;
};
static Conf CF; // type 0 var emptied, 1 constraint, 2 lemma, 3 solution
static u64 n_dec = 0, n_conf = 0, n_sol = 0, n_wc = 0, n_prop = 0, n_res = 0, n_restart = 0, n_noass = 0, n_red = 0;
static vector<double> act;
static double vinc = 1;
static vector<i32> phase;
static vector<char> hasphase;
static int qlim(int kind, int i) { // last scope whose lemma or constraint of this kind speaks at scope i
  for (int j = i; j < N; j++) {
    bool wrong = (S[j].ex ? 0 : 1) != kind;
    if (wrong && restr[j]) return j - 1;
  }
  return N;
}
static vector<int> qL, qW;
static inline bool isHint(int c) {
  int a = hint[2 * c];
  if (a < 0) return false;
  int b = hint[2 * c + 1];
  int x = a >> 1, y = b >> 1;
  if (M.size[x] == 1 && (M.lo[x] == 1) == (bool)(a & 1)) return true;
  if (M.size[y] == 1 && (M.lo[y] == 1) == (bool)(b & 1)) return true;
  return a != b && M.size[x] > 1 && M.size[y] > 1 && vside[x] == cside[c] && vside[y] == cside[c];
}
static inline void lnotify(int x, int ev) {
  for (const W &w : watch[x])
    if ((w.mask & ev) && active_[w.owner] && !inq[w.c] && !isHint(w.c)) enq(w.c);
  if (!inlq[x]) {
    inlq[x] = 1;
    lq.push_back(x);
  }
}
static bool lremove(int x, i64 l, i64 h, int reason, int kind) {
  int ev = M.remove(x, l, h, 0);
  if (!ev) return true;
  P.push_back({x, (i32)l, (i32)h, false, reason, (int)lvP.size(), lastS[x]});
  lastS[x] = P.size() - 1;
  if (!M.size[x]) {
    CF = {kind, 0, x, {}};
    return false;
  }
  lnotify(x, ev);
  return true;
}
static bool lfail(int c) {
  CF = {cside[c], 1, c, {}};
  return false;
}
static bool lprune(int x, i64 l, i64 h, int c) {
  if (x >= NV) {
    if (h < M.lo[x] || l > M.hi[x]) return true;
    return lfail(c);
  }
  if (l < M.lo[x]) l = M.lo[x];
  if (h > M.hi[x]) h = M.hi[x];
  if (l > h) return true;
  if (vside[x] != cside[c]) {
    i64 v = M.next(x, l);
    if (v > h) return true;
    CF = {cside[c], 1, c, {}};
    if (M.size[x] > 1) CF.ch.push_back({x, (i32)v});
    return false;
  }
  return lremove(x, l, h, 2 * c, cside[c]);
}
static bool plainclause(const Con &c) { return c.k == CLAUSE && c.r < 0 && !c.generic && !c.neg; }
static __attribute__((noinline)) bool clauseQ(int ci) {
  const Con &c = C[ci];
  int n = c.v.size(), cs = cside[ci];
  int u = -1;
  bool up = false;
  static vector<pair<int, i32>> wr;
  wr.clear();
  for (int k = 0; k < n; k++) {
    int x = c.v[k];
    bool p = k < c.npos;
    if (M.size[x] == 1) {
      if ((M.lo[x] == 1) == p) {
        if (hint[2 * ci] >= 0) hint[2 * ci] = x * 2 + p;
        return true;
      }
      continue;
    }
    if (vside[x] == cs) {
      if (u >= 0) {
        if (hint[2 * ci] >= 0) {
          hint[2 * ci] = u * 2 + up;
          hint[2 * ci + 1] = x * 2 + p;
        }
        return true;
      }
      u = x;
      up = p;
    } else wr.push_back({x, p ? 0 : 1});
  }
  if (u < 0) {
    CF = {cs, 1, ci, wr};
    return false;
  }
  for (auto &q : wr)
    if (vscope[q.first] < vscope[u]) return true;
  return lremove(u, up ? 0 : 1, up ? 0 : 1, 2 * ci, cs);
}
// sums: what the terms of a linear constraint come to whose variables stand before scope j
static bool isLin(const Con &c) { return (c.k == LE || c.k == EQL) && c.r < 0 && !c.neg && !c.generic; }
static void psum(int ci, int j, const Store &s, i64 &lo, i64 &hi) {
  const Con &c = C[ci];
  lo = hi = 0;
  for (size_t k = 0; k < c.v.size(); k++) {
    int x = c.v[k];
    if (x < NV && vscope[x] >= j) continue;
    i64 p = c.a[k] * s.lo[x], q = c.a[k] * s.hi[x];
    lo += min(p, q);
    hi += max(p, q);
  }
}
static bool sumsHold(const Lem &e) {
  for (auto &q : e.sm) {
    i64 a, b;
    psum(q.c, e.lev, M, a, b);
    if (a < q.l || b > q.h) return false;
  }
  return true;
}
// literal of a lemma
static bool entailed(const Lt &t, const Store &s) {
  if (!(s.lo[t.x] >= t.l && s.hi[t.x] <= t.h)) return false;
  if (t.ex < 0) return true;
  auto &v = pool[t.ex];
  for (size_t k = 0; k + 1 < v.size(); k++) {
    i64 q = s.next(t.x, (i64)v[k].second + 1);
    if (q < v[k + 1].first) return false;
  }
  return true;
}
static i64 common(const Lt &t, const Store &s) { // a value left within, or NONE
  if (t.ex < 0) {
    if (s.hi[t.x] < t.l || s.lo[t.x] > t.h) return Store::NONE;
    i64 q = s.next(t.x, t.l);
    return q <= t.h ? q : Store::NONE;
  }
  for (auto &r : pool[t.ex]) {
    if (s.hi[t.x] < r.first || s.lo[t.x] > r.second) continue;
    i64 q = s.next(t.x, r.first);
    if (q <= r.second) return q;
  }
  return Store::NONE;
}
static void addw(int n, int q, int o) {
  const Lt &t = LM[n]->t[q], &u = LM[n]->t[o];
  wl[2 * t.x + (t.l > dlo[t.x])].push_back({n, q, t.l, t.h, u.x, u.l, u.h});
}
// p: place of the literal that just came to hold, or -1. false on conflict
static __attribute__((noinline)) bool evaluate(int n, int p) {
  Lem &e = *LM[n];
  int k = e.kind;
  if (cur > e.lev || e.lev > (k ? qW : qL)[cur]) return true;
  if (!e.sm.empty() && !sumsHold(e)) return true;
  int a = -1, b = -1, wu = -1;
  int wopen = 0;
  int sz = e.t.size();
  auto setw = [&](int q0, int q1) {
    if (q0 != e.w0 && q0 != e.w1) addw(n, q0, q1);
    if (q1 != e.w0 && q1 != e.w1 && q1 != q0) addw(n, q1, q0);
    e.w0 = q0;
    e.w1 = q1;
  };
  int other = p < 0 ? -1 : (p == e.w0 ? e.w1 : e.w0);
  for (int j = 0; j < sz; j++) {
    const Lt &t = e.t[j];
    if (entailed(t, M)) continue;
    if (common(t, M) == Store::NONE) {
      setw(j, other >= 0 && other != j ? other : (j == 0 && sz > 1 ? 1 : j ? 0 : 0));
      return true;
    }
    if (vside[t.x] == k) {
      if (a < 0) a = j;
      else if (b < 0) b = j;
    } else {
      wopen++;
      if (wu < 0 || vscope[t.x] < vscope[e.t[wu].x]) wu = j;
    }
  }
  if (b >= 0) {
    setw(a, b);
    return true;
  }
  if (a >= 0) {
    if (wu >= 0 && vscope[e.t[wu].x] < vscope[e.t[a].x]) {
      setw(a, wu);
      return true;
    }
    int bi = p, bs = -2;
    if (p < 0 || p == a) {
      bi = a;
      for (int j = 0; j < sz; j++)
        if (j != a && lastS[e.t[j].x] > bs) {
          bs = lastS[e.t[j].x];
          bi = j;
        }
    }
    setw(a, bi);
    e.act += 1;
    const Lt t = e.t[a];
    if (t.ex < 0) return lremove(t.x, max(t.l, M.lo[t.x]), min(t.h, M.hi[t.x]), 2 * n + 1, k);
    auto v = pool[t.ex];
    for (auto &r : v) {
      i64 l = max(r.first, M.lo[t.x]), h = min(r.second, M.hi[t.x]);
      if (l <= h && !lremove(t.x, l, h, 2 * n + 1, k)) return false;
    }
    return true;
  }
  CF = {k, 2, n, {}};
  e.act += 1;
  if (wopen)
    for (int j = 0; j < sz; j++)
      if (!entailed(e.t[j], M)) CF.ch.push_back({e.t[j].x, (i32)common(e.t[j], M)});
  return false;
}
static __attribute__((noinline)) bool lemprop2(int x, int up) {
  auto &v = wl[2 * x + up];
  size_t w = 0;
  size_t r = 0;
  bool ok = true;
  i32 lo = M.lo[x], hi = M.hi[x];
  for (; r < v.size(); r++) {
    Wt &q = v[r];
    if (lo < q.l || hi > q.h) {
      v[w++] = q;
      continue;
    }
    if (q.bx != x && (M.hi[q.bx] < q.bl || M.lo[q.bx] > q.bh)) {
      v[w++] = q;
      continue;
    }
    int n = q.n;
    Lem &e = *LM[n];
    if (e.dead) continue;
    int p = q.p;
    if (e.w0 != p && e.w1 != p) continue;
    if (e.t[p].ex >= 0 && !entailed(e.t[p], M)) {
      v[w++] = q;
      continue;
    }
    int o = p == e.w0 ? e.w1 : e.w0;
    if (o != p && common(e.t[o], M) == Store::NONE) {
      Wt z = q;
      z.bx = e.t[o].x;
      z.bl = e.t[o].l;
      z.bh = e.t[o].h;
      v[w++] = z;
      continue;
    }
    Wt z = q;
    ok = evaluate(n, p);
    if (e.w0 == p || e.w1 == p) {
      o = p == e.w0 ? e.w1 : e.w0;
      if (o != p) {
        z.bx = e.t[o].x;
        z.bl = e.t[o].l;
        z.bh = e.t[o].h;
      }
      v[w++] = z;
    }
    if (!ok) {
      r++;
      break;
    }
  }
  for (; r < v.size(); r++) v[w++] = v[r];
  v.resize(w);
  return ok;
}
static bool lemprop(int x) {
  if (M.lo[x] > dlo[x] && !wl[2 * x + 1].empty() && !lemprop2(x, 1)) return false;
  if (M.hi[x] < dhi[x] && !wl[2 * x].empty() && !lemprop2(x, 0)) return false;
  return true;
}
static void clearall() {
  clearq();
  for (int x : lq) inlq[x] = 0;
  lq.clear();
}
static __attribute__((noinline)) bool propagate() {
  for (;;) {
    if (!lq.empty()) {
      int x = lq.back();
      lq.pop_back();
      inlq[x] = 0;
      if (!lemprop(x)) {
        clearall();
        return false;
      }
      continue;
    }
    int p = 0;
    while (p < 4 && qh[p] == Q[p].size()) p++;
    if (p == 4) {
      for (int k = 0; k < 4; k++) {
        Q[k].clear();
        qh[k] = 0;
      }
      return true;
    }
    int c = Q[p][qh[p]++];
    if (!active_[C[c].owner]) {
      inq[c] = 0;
      continue;
    }
    n_prop++;
    bool ok = C[c].own.empty() ? (refuted_now(C[c], M) ? lfail(c) : true) : plainclause(C[c]) ? clauseQ(c) : filter(c);
    inq[c] = 0;
    if (!ok) {
      clearall();
      return false;
    }
  }
}
static void setactive(bool seed) {
  static vector<char> old;
  old = active_;
  for (int o = 0; o <= N; o++) {
    bool ex = o == N || S[o].ex;
    active_[o] = o >= cur && o <= (ex ? qL[cur] : qW[cur]);
  }
  if (seed)
    for (int o = 0; o <= N; o++)
      if (active_[o] && !old[o])
        for (int c : (o == N ? goalCons : S[o].cons)) enq(c);
}
static bool NOSAVE_U = false, NOSAVE_E = false;
static void jump(int bj) {
  size_t t = lvP[bj];
  int s = vscope[decVar[bj]];
  while (P.size() > t) {
    St &q = P.back();
    if (M.size[q.x] == 1 && !(vside[q.x] ? NOSAVE_U : NOSAVE_E)) {
      phase[q.x] = M.lo[q.x];
      hasphase[q.x] = 1;
    }
    lastS[q.x] = q.prev;
    P.pop_back();
  }
  M.undo(lvM[bj]);
  lvP.resize(bj);
  lvM.resize(bj);
  decVar.resize(bj);
  cur = s;
  setactive(false);
}
// ------------------------------------------------------------ analysis
static vector<char> mk;
static vector<int> mlist; // marks on places of P
static vector<int> *dry = nullptr;
static map<int, int> softUse;
static bool softNow = false;
static void markStep(int s) {
  if (dry) {
    dry->push_back(s);
    return;
  }
  if (!mk[s]) mlist.push_back(s);
  mk[s] |= softNow ? 2 : 1;
}
static void use(int c, int dir) {
  if (dry) return;
  softUse[c] |= dir;
} // 1: at least as much, 2: at most
static void markVar(int y, int s) {
  for (int q = lastS[y]; q >= 0; q = P[q].prev)
    if (q < s) markStep(q);
}
static vector<pair<i32, i32>> domOf(int y, const vector<int> &steps) {
  vector<pair<i32, i32>> d = {{dlo[y], dhi[y]}};
  for (int s : steps) {
    const St &q = P[s];
    if (q.keep) {
      d = {{q.l, q.l}};
      continue;
    }
    vector<pair<i32, i32>> e;
    for (auto &r : d) {
      if (q.h < r.first || q.l > r.second) {
        e.push_back(r);
        continue;
      }
      if (q.l > r.first) e.push_back({r.first, q.l - 1});
      if (q.h < r.second) e.push_back({q.h + 1, r.second});
    }
    d = e;
  }
  return d;
}
static bool within(const vector<pair<i32, i32>> &d, const Lt &t) {
  for (auto &r : d) {
    bool in = false;
    if (t.ex < 0) in = r.first >= t.l && r.second <= t.h;
    else
      for (auto &q : pool[t.ex])
        if (r.first >= q.first && r.second <= q.second) in = true;
    if (!in) return false;
  }
  return true;
}
static bool useOver = false;
static Store W2;
static bool F_relax = true;
static u64 n_relax = 0, n_rtest = 0;
static void applyStep(const St &q) {
  if (q.keep) {
    W2.remove(q.x, -2000000000, (i64)q.l - 1, 0);
    if (W2.size[q.x]) W2.remove(q.x, (i64)q.h + 1, 2000000000, 0);
  } else W2.remove(q.x, q.l, q.h, 0);
}
// marks steps before s that make c refute the box, x kept to l..h; one after the other is left out as long as it still does
static void minExplain(int c, int s, int x, i32 l, i32 h, const vector<pair<int, i32>> *ch, bool holds,
                       int below = 1000) {
  const Con &q = C[c];
  static vector<vector<int>> st;
  static vector<int> ys;
  ys.clear();
  st.assign(q.own.size(), {});
  int total = 0;
  for (size_t k = 0; k < q.own.size(); k++) {
    int y = q.own[k];
    if (vscope[y] >= below) continue;
    ys.push_back(k);
    for (int z = lastS[y]; z >= 0; z = P[z].prev)
      if (z < s) {
        const St &o = P[z];
        if (y == x) {
          bool hit = o.keep ? !(l == o.l && h == o.l) : !(o.h < l || o.l > h);
          if (!hit) continue;
        }
        st[k].push_back(z);
        total++;
      }
  }
  auto test = [&]() -> bool {
    n_rtest++;
    size_t m = W2.tr.size();
    bool ok = true;
    for (int y : q.own)
      if (vscope[y] >= below) {
        W2.remove(y, -2000000000, (i64)M.lo[y] - 1, 0);
        W2.remove(y, (i64)M.lo[y] + 1, 2000000000, 0);
      }
    for (size_t k = 0; k < q.own.size() && ok; k++) {
      for (int z : st[k]) {
        applyStep(P[z]);
        if (!W2.size[P[z].x]) {
          ok = false;
          break;
        }
      }
    }
    if (ok && x >= 0) {
      W2.remove(x, -2000000000, (i64)l - 1, 0);
      if (W2.size[x]) W2.remove(x, (i64)h + 1, 2000000000, 0);
      if (!W2.size[x]) ok = false;
    }
    if (ok && ch)
      for (auto &p : *ch) {
        if (!W2.has(p.first, p.second)) {
          ok = false;
          break;
        }
        W2.assign(p.first, p.second);
      }
    if (ok) ok = holds ? base_state(q, W2) == 1 : refuted_now(q, W2);
    W2.undo(m);
    return ok;
  };
  if (total <= 60 && test()) {
    sort(ys.begin(), ys.end(), [&](int a, int b) {
      int p = st[a].empty() ? -1 : st[a][0], r = st[b].empty() ? -1 : st[b][0];
      return p > r;
    });
    for (int k : ys) {
      if (st[k].empty()) continue;
      auto sv = st[k];
      st[k].clear();
      if (test()) {
        n_relax += sv.size();
        continue;
      }
      st[k] = sv;
      if (sv.size() > 1 && sv.size() <= 12)
        for (size_t j = 0; j < st[k].size();) {
          int z = st[k][j];
          st[k].erase(st[k].begin() + j);
          if (test()) n_relax++;
          else {
            st[k].insert(st[k].begin() + j, z);
            j++;
          }
        }
    }
  }
  bool soft = F_sum && isLin(q);
  if (soft) {
    use(c, q.k == EQL ? 3 : holds ? 2 : 1);
    softNow = true;
  }
  for (auto &v : st)
    for (int z : v) markStep(z);
  softNow = false;
}
static void markSums(const Lem &e, int s) {
  for (auto &q : e.sm) {
    use(q.c, (q.l > -BIG ? 1 : 0) | (q.h < BIG ? 2 : 0));
    softNow = true;
    for (int y : C[q.c].own)
      if (vscope[y] < e.lev) markVar(y, s);
    softNow = false;
  }
}
static void explain(int s) {
  const St q = P[s];
  int r = q.reason;
  if (r & 1) {
    Lem &e = *LM[r >> 1];
    e.act += 0.5;
    markSums(e, s);
    for (auto &t : e.t)
      if (t.x != q.x) {
        if (vside[t.x] == e.kind) markVar(t.x, s);
        else {
          vector<int> st;
          for (int z = lastS[t.x]; z >= 0; z = P[z].prev)
            if (z < s) st.push_back(z);
          if (!st.empty() && within(domOf(t.x, st), t)) markVar(t.x, s);
        }
      }
    return;
  }
  const Con &c = C[r >> 1];
  if (F_relax && !plainclause(c)) {
    minExplain(r >> 1, s, q.x, q.l, q.h, nullptr, false);
    return;
  }
  for (int y : c.own) {
    if (y != q.x) {
      markVar(y, s);
      continue;
    }
    for (int z = lastS[y]; z >= 0; z = P[z].prev)
      if (z < s) {
        const St &o = P[z];
        bool hit = o.keep ? !(q.l == o.l && q.h == o.l) : !(o.h < q.l || o.l > q.h);
        if (hit) markStep(z);
      }
  }
}
// marks what makes the constraint hold
static vector<int> lastwrong; // scope from which on all scopes belong to the player
static i64 val(int x);
static void markTrue(const vector<int> &cs,
                     int below) { // variables of scopes from below on need no mark; all are fixed
  vector<int> rest;
  int top = P.size();
  for (int ci : cs) {
    const Con &c = C[ci];
    if (!plainclause(c)) {
      if (F_relax && c.k == LE && c.r < 0 && !c.neg && !c.generic && !useOver)
        minExplain(ci, top, -1, 0, 0, nullptr, true, below);
      else
        for (int y : c.own)
          if (vscope[y] < below) markVar(y, top);
      continue;
    }
    int best = -1, rank = 99;
    bool done = false;
    for (size_t k = 0; k < c.v.size() && !done; k++) {
      int x = c.v[k];
      if ((val(x) == 1) != ((int)k < c.npos)) continue;
      if (x >= NV || vscope[x] >= below) {
        done = true;
        break;
      }
      if (lastS[x] < 0) {
        done = true;
        break;
      }
      if (mk[lastS[x]]) {
        done = true;
        break;
      }
      int r = vside[x] == 0 ? 0 : 2;
      if (r == 0 && vscope[x] > lastwrong[0]) r = -1;
      if (r < rank) {
        rank = r;
        best = x;
      }
    }
    if (done) continue;
    if (rank <= 0) {
      markVar(best, top);
      continue;
    }
    rest.push_back(ci);
  }
  while (!rest.empty()) {
    map<int, int> cnt;
    vector<int> r2;
    for (int ci : rest) {
      const Con &c = C[ci];
      bool done = false;
      for (size_t k = 0; k < c.v.size(); k++) {
        int x = c.v[k];
        if ((val(x) == 1) == ((int)k < c.npos) && (x >= NV || lastS[x] < 0 || mk[lastS[x]])) done = true;
      }
      if (!done) r2.push_back(ci);
    }
    rest = r2;
    if (rest.empty()) break;
    for (int ci : rest) {
      const Con &c = C[ci];
      for (size_t k = 0; k < c.v.size(); k++) {
        int x = c.v[k];
        if ((val(x) == 1) == ((int)k < c.npos)) cnt[x]++;
      }
    }
    int bx = -1;
    for (auto &q : cnt)
      if (bx < 0 || q.second > cnt[bx] || (q.second == cnt[bx] && act[q.first] > act[bx])) bx = q.first;
    markVar(bx, top);
  }
}
static vector<i32> valOver;
static vector<vector<int>> occ;
static bool climbOK = false;
static int climbFrom;
// other values of the player's last scopes that satisfy more clauses by the player's own variables
static __attribute__((noinline)) void climb() {
  valOver.assign(NV, 0);
  for (int v = 0; v < NV; v++) valOver[v] = M.lo[v];
  if (occ.empty()) {
    occ.resize(NV);
    climbOK = true;
    for (int c : goalCons) {
      if (!plainclause(C[c])) {
        for (int y : C[c].own)
          if (vscope[y] > climbFrom) climbOK = false;
      } else
        for (int y : C[c].own) occ[y].push_back(c);
    }
    for (int j = climbFrom + 1; j < N; j++)
      if (restr[j]) climbOK = false;
  }
  useOver = climbOK;
  if (!climbOK) return;
  static vector<int> ne, nu;
  ne.assign(C.size(), 0);
  nu.assign(C.size(), 0);
  auto tr = [&](const Con &c, size_t k) {
    int x = c.v[k];
    i64 v = x < NV ? valOver[x] : M.lo[x];
    return (v == 1) == ((int)k < c.npos);
  };
  for (int c : goalCons)
    if (plainclause(C[c]))
      for (size_t k = 0; k < C[c].v.size(); k++)
        if (tr(C[c], k)) {
          int x = C[c].v[k];
          if (x >= NV || vside[x] == 0 || lastS[x] < 0) ne[c]++;
          else nu[c]++;
        }
  for (int round = 0; round < 4; round++) {
    bool ch = false;
    for (int x = 0; x < NV; x++)
      if (vscope[x] > climbFrom && vbool[x]) {
        int gain = 0;
        bool bad = false;
        for (int c : occ[x]) {
          bool t = false;
          for (size_t k = 0; k < C[c].v.size(); k++)
            if (C[c].v[k] == x && tr(C[c], k)) t = true;
          if (t) {
            if (ne[c] == 1) {
              if (nu[c] == 0) {
                bad = true;
                break;
              }
              gain--;
            }
          } else if (ne[c] == 0) gain++;
        }
        if (bad || gain <= 0) continue;
        for (int c : occ[x])
          for (size_t k = 0; k < C[c].v.size(); k++)
            if (C[c].v[k] == x) {
              if (tr(C[c], k)) ne[c]--;
              else ne[c]++;
            }
        valOver[x] ^= 1;
        ch = true;
      }
    if (!ch) break;
  }
}
static i64 val(int x) { return x < NV && useOver ? valOver[x] : M.lo[x]; }
static void bumpv(int x) {
  act[x] += vinc;
  if (act[x] > 1e100) {
    for (double &a : act) a *= 1e-100;
    vinc *= 1e-100;
  }
}
static int finalKind = -1;
static bool F_min = true, F_climb = true;
static double DECAY = 1.05;
static u64 n_min = 0, n_sum = 0;
static u64 lits_total = 0;
// learns from CF; true where the game is decided
static bool analyze() {
  useOver = false;
  mk.assign(P.size(), 0);
  mlist.clear();
  int k = CF.kind;
  int top = P.size();
  vector<int> resolved;
  vector<char> added(N + 1, 0);
  Item last{'e', 0, 0, 0, 0};
  int d, isc, ccur;
again:
  softUse.clear();
  if (CF.type == 0) markVar(CF.id, top);
  else if (CF.type == 1) {
    if (F_relax && !plainclause(C[CF.id])) minExplain(CF.id, top, -1, 0, 0, &CF.ch, false);
    else
      for (int y : C[CF.id].own) markVar(y, top);
    last = {'f', 0, 0, 0, CF.id};
  } else if (CF.type == 2) {
    Lem &e = *LM[CF.id];
    markSums(e, top);
    for (auto &t : e.t) {
      bool ch = false;
      for (auto &q : CF.ch)
        if (q.first == t.x) ch = true;
      if (!ch) markVar(t.x, top);
    }
    last = {'a', 0, 0, 0, CF.id};
  } else {
    if (F_climb) climb();
    markTrue(goalCons, N + 1);
    last = {'g', 0, 0, 0, 0};
  }
  for (int j = 0; j < N; j++)
    if (added[j]) markTrue(S[j].cons, j);
  d = 0;
  isc = -1;
  ccur = cur;
  for (;;) {
    d = 0;
    bool any = false;
    for (int s : mlist)
      if (mk[s] && vside[P[s].x] == k) {
        any = true;
        if (P[s].lev > d) d = P[s].lev;
      }
    int pick = -1;
    if (any && d == 0) {
      for (int s : mlist)
        if (mk[s] && vside[P[s].x] == k && s > pick) pick = s;
    } else if (any) {
      int dv = decVar[d - 1];
      if (vside[dv] != k) {
        for (int s : mlist)
          if (mk[s] && vside[P[s].x] == k && P[s].lev == d && s > pick) pick = s;
        isc = -2;
      } else {
        isc = vscope[dv];
        for (int s : mlist)
          if (mk[s] && vside[P[s].x] == k && vscope[P[s].x] > isc && s > pick) pick = s;
        if (pick < 0) {
          int cnt = 0, hi = -1;
          for (int s : mlist)
            if (mk[s] && vside[P[s].x] == k && P[s].lev == d) {
              cnt++;
              if (s > hi) hi = s;
            }
          if (cnt > 1) pick = hi;
        }
      }
    } else isc = -1;
    if (pick >= 0) {
      if (P[pick].reason < 0) {
        fprintf(stderr, "decision to resolve\n");
        exit(4);
      }
      mk[pick] = 0;
      resolved.push_back(pick);
      n_res++;
      explain(pick);
      bumpv(P[pick].x);
      continue;
    }
    if (F_min && isc >= 0) {
      bool ch = false;
      for (int s : mlist)
        if (mk[s] && vside[P[s].x] == k && vscope[P[s].x] == isc && P[s].reason >= 0 && P[s].lev < d) {
          static vector<int> ex;
          ex.clear();
          dry = &ex;
          explain(s);
          dry = nullptr;
          bool all = true;
          for (int z : ex)
            if (!mk[z]) {
              all = false;
              break;
            }
          if (all) {
            mk[s] = 0;
            resolved.push_back(s);
            explain(s);
            n_min++;
            ch = true;
          } else if (P[s].lev == 0) {
            mk[s] = 0;
            resolved.push_back(s);
            explain(s);
            ch = true;
            break;
          }
        }
      if (ch) continue;
    }
    // restricted scopes of the winner that were passed
    if (anyRestr) {
      int j = (CF.type == 3 ? N : ccur) - 1;
      for (; j > isc; j--)
        if ((S[j].ex ? 0 : 1) != k && restr[j] && !added[j]) break;
      if (j > isc) {
        added[j] = 1;
        if (resolved.empty()) markTrue(S[j].cons, j);
        else {
          mk.assign(P.size(), 0);
          mlist.clear();
          resolved.clear();
          goto again;
        }
        continue;
      }
    }
    break;
  }
  // literals and choices
  vector<int> keep;
  vector<Item> pf;
  vector<pair<int, Item>> it;
  map<int, int> chosen;
  for (int s : mlist)
    if (mk[s]) {
      int x = P[s].x;
      if (vside[x] == k || vscope[x] < isc) keep.push_back(s);
      else {
        auto f = chosen.find(x);
        if (f == chosen.end() || f->second > s) chosen[x] = s;
      }
    }
  for (int j = 0; j < N; j++)
    if (added[j] && j > isc)
      for (int x : S[j].vars)
        if (!chosen.count(x)) chosen[x] = lastS[x];
  map<int, i32> chv;
  for (auto &q : CF.ch) chv[q.first] = q.second;
  for (auto &q : chosen)
    it.push_back({q.second, {'c', q.first, chv.count(q.first) ? chv[q.first] : (i32)val(q.first), 0, 0}});
  for (int s : resolved) it.push_back({s, {(P[s].reason & 1) ? 'q' : 'p', P[s].x, P[s].l, P[s].h, P[s].reason >> 1}});
  stable_sort(it.begin(), it.end(),
              [](const pair<int, Item> &a, const pair<int, Item> &b) { return a.first < b.first; });
  for (auto &q : it) pf.push_back(q.second);
  for (auto &q : CF.ch)
    if (!chosen.count(q.first)) pf.push_back({'c', q.first, q.second, 0, 0});
  pf.push_back(last);
  Lem *e = new Lem;
  e->kind = k;
  e->lev = isc;
  e->pf = pf;
  sort(keep.begin(), keep.end());
  map<int, vector<int>> by;
  map<int, int> hard;
  for (int s : keep) {
    int x = P[s].x;
    if ((mk[s] & 1) || vscope[x] >= isc || M.size[x] != 1) hard[x] = 1;
  }
  {
    vector<char> covered;
    for (auto &u : softUse) {
      bool need = false;
      const Con &c = C[u.first];
      for (int s : keep) {
        int x = P[s].x;
        if (!hard.count(x) && find(c.own.begin(), c.own.end(), x) != c.own.end()) need = true;
      }
      if (!need) continue;
      i64 a, b;
      psum(u.first, isc, M, a, b);
      if (a != b) {
        for (int y : c.own)
          if (vscope[y] < isc) hard[y] = 1;
        continue;
      }
      e->sm.push_back({u.first, (u.second & 1) ? a : -BIG, (u.second & 2) ? a : BIG});
    }
    // a variable made hard by a sum that isn't fixed may leave sums without need; harmless
    for (int s : keep) {
      int x = P[s].x;
      if (!hard.count(x)) {
        bool in = false;
        for (auto &q : e->sm) {
          const Con &c = C[q.c];
          if (find(c.own.begin(), c.own.end(), x) != c.own.end()) in = true;
        }
        if (!in) hard[x] = 1;
      }
    }
  }
  int bsum = 0;
  for (int s : keep) {
    if (hard.count(P[s].x)) by[P[s].x].push_back(s);
    else bsum = max(bsum, P[s].lev);
  }
  if (!e->sm.empty()) {
    for (auto &q : e->sm)
      for (int y : C[q.c].own)
        if (vscope[y] < isc && lastS[y] >= 0) bsum = max(bsum, P[lastS[y]].lev);
    n_sum++;
  }
  int bj = 0, ax = -1;
  for (int s : keep) {
    int x = P[s].x;
    if (vside[x] == k && P[s].lev == d) ax = x;
  }
  bj = max(bj, bsum);
  vector<int> lv;
  for (auto &q : by) {
    auto dm = domOf(q.first, q.second);
    Lt t{q.first, dm[0].first, dm.back().second, -1};
    if (dm.size() > 1) {
      t.ex = pool.size();
      pool.push_back(dm);
    }
    e->t.push_back(t);
    bumpv(q.first);
    if (q.first != ax)
      for (int s : q.second) {
        bj = max(bj, P[s].lev);
      }
  }
  lits_total += e->t.size();
  LM.push_back(e);
  int n = LM.size() - 1;
  vinc *= DECAY;
  if (isc >= 0) byLev[k][isc].push_back(n);
  if (e->t.empty() && e->sm.empty()) {
    finalKind = k;
    return true;
  }
  if (anyRestr) {
    int j = isc - 1;
    while (j >= 0 && !((S[j].ex ? 0 : 1) != k && restr[j])) j--;
    if (j >= 0) {
      int z = 0;
      for (size_t l = 0; l < decVar.size(); l++)
        if (vscope[decVar[l]] <= j) z = l + 1;
      bj = max(bj, z);
    }
  }
  if (bj >= d) {
    fprintf(stderr, "not below\n");
    exit(4);
  }
  jump(bj);
  e->w0 = 0;
  e->w1 = e->t.size() > 1 ? 1 : 0;
  for (size_t j = 0; j < e->t.size(); j++)
    if (e->t[j].x == ax) e->w0 = j;
  if (e->w1 == e->w0 && e->t.size() > 1) e->w1 = 0;
  int hb = -2;
  for (size_t j = 0; j < e->t.size(); j++)
    if ((int)j != e->w0 && lastS[e->t[j].x] > hb) {
      hb = lastS[e->t[j].x];
      e->w1 = j;
    }
  addw(n, e->w0, e->w1);
  if (e->w1 != e->w0) addw(n, e->w1, e->w0);
  size_t p0 = P.size();
  bool ok = evaluate(n, -1);
  if (ok && P.size() == p0) {
    n_noass++;
    if (n_noass > 100000) {
      fprintf(stderr, "not asserting\n");
      exit(4);
    }
  }
  if (!ok) {
    clearall();
    return analyze();
  }
  return false;
}
static bool F_norestart = false, F_noreduce = false;
static int RUNIT = 128;
static size_t MAXLEM = 4000;
static u64 MAXC = 5000000;
static double TLIM = 20;
static i64 luby(i64 i) {
  i64 k;
  for (k = 1; (1ll << k) - 1 < i; k++)
    ;
  if ((1ll << k) - 1 == i) return 1ll << (k - 1);
  return luby(i - (1ll << (k - 1)) + 1);
}
static bool decided = false;
static bool search(double t0) { // true where decided
  G_learn = true;
  E.s = &M;
  E.olo = 0;
  E.ohi = N;
  cur = 0;
  active_.assign(N + 1, 0);
  setactive(true);
  i64 lr = 1;
  u64 nextr = RUNIT;
  u64 since = 0;
  size_t maxlem = MAXLEM;
  size_t livel = 0;
  if (N == 0) cur = 0;
  for (;;) {
    bool ok = propagate();
    if (ok) { // next scope?
      bool moved = false;
      while (cur < N) {
        bool open = false;
        for (int v : S[cur].vars)
          if (M.size[v] > 1) {
            open = true;
            break;
          }
        if (open) break;
        cur++;
        moved = true;
        if (anyRestr || n_sum) break;
      }
      if (moved) {
        setactive(true);
        if (anyRestr || n_sum) {
          int pc = cur - 1;
          for (int k = 0; k < 2 && ok; k++) {
            auto &q = k ? qW : qL;
            for (int l = n_sum ? cur : max(cur, q[pc] + 1); l <= q[cur] && l < N && ok; l++) {
              auto &b = byLev[k][l];
              for (size_t z = b.size(); z-- > 0 && ok;)
                if (!LM[b[z]]->dead) ok = evaluate(b[z], -1);
            }
          }
          if (!ok) clearall();
        }
        if (ok) continue;
      } else if (cur < N) {
        if (!F_norestart && since >= nextr) {
          since = 0;
          lr++;
          nextr = RUNIT * luby(lr);
          n_restart++;
          if (!lvP.empty()) {
            jump(0);
            continue;
          }
        }
        if ((n_conf & 255) == 0 && now() - t0 > TLIM) return false;
        if (n_conf > MAXC) return false;
        int u = -1;
        for (int v : S[cur].vars)
          if (M.size[v] > 1 && (u < 0 || act[v] > act[u])) u = v;
        i32 v = hasphase[u] && M.has(u, phase[u]) ? phase[u] : M.lo[u];
        n_dec++;
        lvP.push_back(P.size());
        lvM.push_back(M.tr.size());
        decVar.push_back(u);
        int ev = M.assign(u, v);
        P.push_back({u, v, v, true, -1, (int)lvP.size(), lastS[u]});
        lastS[u] = P.size() - 1;
        lnotify(u, ev);
        continue;
      } else {
        CF = {1, 3, 0, {}};
        ok = false;
        n_sol++;
      }
    }
    n_conf++;
    since++;
    if (CF.kind == 1 && CF.type != 3) n_wc++;
    if (analyze()) {
      decided = true;
      return true;
    }
    livel++;
    if (!F_noreduce && livel > maxlem) {
      vector<float> a;
      for (auto *e : LM)
        if (!e->dead && e->t.size() > 2) a.push_back(e->act / (1 + e->t.size()));
      if (a.size() > 10) {
        nth_element(a.begin(), a.begin() + a.size() / 2, a.end());
        float md = a[a.size() / 2];
        vector<char> lock(LM.size(), 0);
        for (auto &s : P)
          if (s.reason >= 0 && (s.reason & 1)) lock[s.reason >> 1] = 1;
        for (size_t n = 0; n + 1 < LM.size(); n++) {
          auto *e = LM[n];
          if (!e->dead && e->t.size() > 2 && !lock[n] && e->act / (1 + e->t.size()) < md) {
            e->dead = true;
            livel--;
            n_red++;
          }
          e->act *= 0.5;
        }
      }
      maxlem = maxlem * 11 / 10;
    }
  }
}
static int SEED = 0;
int main(int argc, char **argv) {
  string file, outf;
  for (int k = 1; k < argc; k++) {
    string a = argv[k];
    if (a == "-o") outf = argv[++k];
    else if (a == "--no-restart") F_norestart = true;
    else if (a == "--maxlem") MAXLEM = atoi(argv[++k]);
    else if (a == "--no-relax") F_relax = false;
    else if (a == "--no-sum") F_sum = false;
    else if (a == "--seed") SEED = atoi(argv[++k]);
    else if (a == "--uphase") NOSAVE_U = true;
    else if (a == "--ephase") NOSAVE_E = true;
    else if (a == "--decay") DECAY = atof(argv[++k]);
    else if (a == "--no-min") F_min = false;
    else if (a == "--no-climb") F_climb = false;
    else if (a == "--no-reduce") F_noreduce = true;
    else if (a == "--unit") RUNIT = atoi(argv[++k]);
    else if (a == "--limit") TLIM = atof(argv[++k]);
    else file = a;
  }
  double t0 = now();
  FILE *f = fopen(file.c_str(), "rb");
  if (!f) die("file");
  string x;
  char buf[65536];
  size_t n;
  while ((n = fread(buf, 1, sizeof buf, f)) > 0) x.append(buf, n);
  fclose(f);
  lex(x);
  parse();
  build_cons();
  raw.clear();
  T.clear();
  for (auto &s : S)
    if (s.cond || !s.aggs.empty()) {
      printf("{\"outcome\":\"optimising\"}\n");
      return 0;
    }
  M.init();
  vside.assign(NT, 0);
  for (int v = 0; v < NV; v++) vside[v] = S[vscope[v]].ex ? 0 : 1;
  cside.resize(C.size());
  for (size_t c = 0; c < C.size(); c++) cside[c] = (C[c].owner == N || S[C[c].owner].ex) ? 0 : 1;
  restr.assign(N + 1, 0);
  anyRestr = false;
  for (int j = 0; j < N; j++) {
    restr[j] = !S[j].cons.empty();
    anyRestr |= restr[j];
  }
  qL.resize(N + 1);
  qW.resize(N + 1);
  for (int i = 0; i <= N; i++) {
    qL[i] = qlim(0, i);
    qW[i] = qlim(1, i);
  }
  lastS.assign(NV, -1);
  W2.init();
  wl.resize(2 * NV);
  inlq.assign(NV, 0);
  act.assign(NV, 0);
  phase.assign(NV, 0);
  hasphase.assign(NV, 0);
  lastwrong.assign(2, -1);
  for (int j = 0; j < N; j++)
    if (!S[j].ex) lastwrong[0] = j;
  {
    vector<int> pol(NV, 0);
    for (auto &c : C)
      if (c.k == CLAUSE)
        for (size_t j = 0; j < c.v.size(); j++)
          if (c.v[j] < NV) pol[c.v[j]] += (int)j < c.npos ? 1 : -1;
    for (int v = 0; v < NV; v++)
      if (pol[v]) {
        hasphase[v] = 1;
        phase[v] = (vside[v] == 0) == (pol[v] > 0) ? 1 : 0;
      }
  }
  for (size_t k = 0; k < C.size(); k++) {
    if (hint[2 * k] < 0) continue;
    int a = -1, b = -1;
    for (size_t j = 0; j < C[k].v.size(); j++) {
      int v = C[k].v[j];
      if (v >= NV || vside[v] != cside[k]) continue;
      int l = v * 2 + ((int)j < C[k].npos);
      if (a < 0) a = l;
      else if (b < 0) b = l;
    }
    if (b < 0) hint[2 * k] = hint[2 * k + 1] = -1;
    else {
      hint[2 * k] = a;
      hint[2 * k + 1] = b;
    }
  }
  if (SEED) {
    srand(SEED);
    for (int v = 0; v < NV; v++) act[v] = (rand() % 1000) * 1e-6;
  }
  climbFrom = lastwrong[0];
  for (int j = 0; j < climbFrom; j++)
    if (S[j].ex) F_climb = false;
  double t1 = now();
  bool done = search(t1);
  double t2 = now();
  size_t bytes = 0, used = 0, steps = 0;
  if (done) {
    int z = LM.size();
    vector<char> need(z, 0);
    need[z - 1] = 1;
    vector<int> num(z, 0);
    for (int q = z - 1; q >= 0; q--)
      if (need[q])
        for (auto &i : LM[q]->pf)
          if (i.op == 'q' || i.op == 'a') need[i.ref] = 1;
    vector<int> lastuse(z, -1);
    for (int q = 0; q < z; q++)
      if (need[q])
        for (auto &i : LM[q]->pf)
          if (i.op == 'q' || i.op == 'a') lastuse[i.ref] = q;
    vector<vector<int>> del(z);
    for (int q = 0; q < z; q++)
      if (need[q] && lastuse[q] >= 0 && lastuse[q] < z - 1) del[lastuse[q]].push_back(q);
    Store W;
    W.init();
    string o = "qcert 3\n";
    o += finalKind ? "true\n" : "false\n";
    char b[128];
    for (int q = 0; q < z; q++)
      if (need[q]) {
        num[q] = ++used;
        Lem &e = *LM[q];
        o += e.kind ? 'w' : 'l';
        for (auto &t : e.t) {
          if (t.ex < 0) {
            sprintf(b, " %d %d %d", t.x + 1, t.l, t.h);
            o += b;
          } else
            for (auto &r : pool[t.ex]) {
              sprintf(b, " %d %d %d", t.x + 1, r.first, r.second);
              o += b;
            }
        }
        o += '\n';
        for (auto &q : e.sm) {
          sprintf(b, "u %d %lld %lld\n", q.c + 1, (long long)q.l, (long long)q.h);
          o += b;
        }
        size_t tm = W.tr.size();
        for (auto &t : e.t) {
          W.remove(t.x, -2000000000, (i64)t.l - 1, 0);
          W.remove(t.x, (i64)t.h + 1, 2000000000, 0);
          if (t.ex >= 0)
            for (size_t j = 0; j + 1 < pool[t.ex].size(); j++)
              W.remove(t.x, (i64)pool[t.ex][j].second + 1, (i64)pool[t.ex][j + 1].first - 1, 0);
        }
        for (auto &i : e.pf) {
          bool stop = false;
          if (i.op == 'p' || i.op == 'q') {
            if (!W.remove(i.x, i.l, i.h, 0)) continue;
            stop = !W.size[i.x];
          } else if (i.op == 'c') {
            if (W.size[i.x] == 1) continue;
            W.assign(i.x, i.l);
          }
          steps++;
          switch (i.op) {
          case 'p':
            sprintf(b, "p %d %d %d %d\n", i.x + 1, i.l, i.h, i.ref + 1);
            break;
          case 'q':
            sprintf(b, "q %d %d %d %d\n", i.x + 1, i.l, i.h, num[i.ref]);
            break;
          case 'c':
            sprintf(b, "c %d %d\n", i.x + 1, i.l);
            break;
          case 'f':
            sprintf(b, "f %d\n", i.ref + 1);
            break;
          case 'a':
            sprintf(b, "a %d\n", num[i.ref]);
            break;
          default:
            sprintf(b, "%c\n", i.op);
          }
          o += b;
          if (stop) break;
        }
        W.undo(tm);
        for (int q2 : del[q]) {
          sprintf(b, "d %d\n", num[q2]);
          o += b;
        }
      }
    bytes = o.size();
    if (!outf.empty()) {
      FILE *g = fopen(outf.c_str(), "wb");
      fwrite(o.data(), 1, bytes, g);
      fclose(g);
    }
  }
  double t3 = now();
  struct rusage ru;
  getrusage(RUSAGE_SELF, &ru);
  double cpu = ru.ru_utime.tv_sec + ru.ru_utime.tv_usec * 1e-6 + ru.ru_stime.tv_sec + ru.ru_stime.tv_usec * 1e-6;
  printf(
      "{\"outcome\":\"%s\",\"seconds\":%.4f,\"cpu\":%.4f,\"search\":%.4f,\"write\":%.4f,\"turns\":%llu,\"conflicts\":%"
      "llu,\"solutions\":%llu,\"wconf\":%llu,\"lemmas\":%zu,\"used\":%zu,\"steps\":%zu,\"bytes\":%zu,\"props\":%llu,"
      "\"resolved\":%llu,\"restarts\":%llu,\"noass\":%llu,\"reduced\":%llu,\"avglits\":%.1f,\"mib\":%.1f}\n",
      done ? (finalKind ? "true" : "false") : "open", now() - t0, cpu, t2 - t1, t3 - t2, (unsigned long long)n_dec,
      (unsigned long long)n_conf, (unsigned long long)n_sol, (unsigned long long)n_wc, LM.size(), used, steps, bytes,
      (unsigned long long)n_prop, (unsigned long long)n_res, (unsigned long long)n_restart, (unsigned long long)n_noass,
      (unsigned long long)n_red, LM.empty() ? 0.0 : (double)lits_total / LM.size(), ru.ru_maxrss / 1024.0);
  return 0;
}
