// The words of reports: their class and letter, and a sentence for each. Below the first line is JSON, which
// tools/explain.py reads too. In a sentence `{x}` is a field, and `{name x}` what the table `name` has for it: for the
// whole word, its first letter, `odd` or `even`, or `*`. In a table `{}` is the word, and `{#}` the word without its
// first letter.
const WORDS = {
  "letters": {
    "answer": ["A", "answer"],
    "lock": ["L", "mmap lock"],
    "place": ["P", "page table"],
    "guard": ["N", "notifier: an invalidation"],
    "move": ["M", "frames, migration"],
    "table": ["T", "mirror's table"],
    "step": ["S", "step between"]
  },
  "kinds": {
    "loaded": ["answer", "x a b", "{who x} reads {count b} byte(s)"],
    "stored": ["answer", "x a b", "{who x} writes {count b} byte(s)"],
    "failed": ["answer", "x a n c", "{who x} fails: {cause c}"],
    "mapped": ["answer", "p f n w", "mapped, of zeros: {pages f n}; the lock is released"],
    "unmapped": ["answer", "p f n", "unmapped: {pages f n}; the lock is released"],
    "protected": ["answer", "p f n w", "the right is {w} now: {pages f n}; the lock is released"],
    "forked": ["answer", "p c", "{c} is there, with what {p} has now; the lock is released"],
    "exited": ["answer", "p", "{p} is not there any more; the lock is released"],
    "attached": ["answer", "m d p f n q",
      "{d} has a mirror of {pages f n} of {p}; its interval has sequence {q}"],
    "detaching": ["answer", "m q", "{m} is detached, its table erased; its interval goes when sequence {q} ends"],
    "detached": ["answer", "m", "{m} is gone"],
    "refused": ["answer", "c", "the operation is refused: {cause c}"],
    "migrated": ["answer", "n", "the migration ends: {n} page(s) moved; the lock is released"],
    "seen": ["answer", "m v c", "page {v}: {code c}"],
    "evicted": ["answer", "n", "the eviction ends: {n} frame(s) emptied"],
    "removed": ["answer", "d", "the memory of {d} is gone for good"],
    "excluded": ["answer", "m v", "page {v} was taken for this actor alone; the lock is released"],
    "added": ["answer", "m a was now", "the addition ends: {was} became {now}"],
    "rlock": ["lock", "p", "the mmap lock of {p} is taken for reading"],
    "runlock": ["lock", "p", "the mmap lock of {p} is released"],
    "wlock": ["lock", "p", "the mmap lock of {p} is taken for writing"],
    "named": ["step", "p c", "the number of {c} is given away"],
    "take": ["move", "f", "{f}, the lowest free frame, is taken, zeroed and locked"],
    "drop": ["move", "f", "{f} is free"],
    "place": ["place", "p v kind f last", "page {v} of {p} {place kind}"],
    "start": ["guard", "p f n q",
      "an invalidation of {pages f n} of {p} begins; its sequence is {q}, {starting q}"],
    "told": ["guard", "m f n q", "{m} is invalidated: its table is erased there, its interval has sequence {q}"],
    "end": ["guard", "p f n q", "the invalidation of {pages f n} of {p} ends; its sequence is {q}, {ending q}"],
    "begin": ["table", "m q", "a look-up begins, and notes sequence {q}"],
    "retry": ["table", "m", "{m} was invalidated since its look-up began: it begins again"],
    "set": ["table", "m v f w at", "the table of {m} has {backing f} for page {v}, since line {at}"],
    "fresh": ["move", "p v", "page {v} is untouched: the migration will put a new frame there"],
    "copied": ["move", "f g k", "{f} is copied to {g}{part k}"],
    "committed": ["move", "f g", "the contents of {f} are those of {g} from now on"],
    "kept": ["move", "at why b", "{target at} stays: {reason why}{locker b}"],
    "done": ["move", "f", "{f} is unlocked"],
    "withdrawn": ["move", "d", "{d} gives out no frame any more"],
    "fetched": ["step", "m a b", "the addition has read {b}"]
  },
  "tables": {
    "who": { "p": "the CPU in {}", "m": "the device through {}" },
    "cause": {
      "1": "the page has no area, or the process is not there",
      "2": "the area is read-only",
      "3": "no system frame is free",
      "4": "the mirror is not attached, or the page is outside its window",
      "5": "a page has an area already",
      "6": "there would be more than 64 areas",
      "7": "the number is 0 or was given before",
      "8": "the process is not there",
      "9": "the mirror number was attached before",
      "10": "the device is removed"
    },
    "code": {
      "00": "nothing here, a migration entry, or another device has it",
      "11": "the zero page",
      "01": "system memory, read-only",
      "02": "system memory, writable",
      "21": "the device's own memory, read-only",
      "22": "the device's own memory, writable",
      "31": "an exclusive page"
    },
    "place": {
      "none": "is not mapped any more",
      "zero": "has the zero page, read-only",
      "sys": "has frame {f}, {right last}",
      "own": "lies in device memory, in {f}, {right last}",
      "moving": "becomes a migration entry: it is moved out of {f}, and is {right last} afterwards",
      "excl": "is for actor {number last} alone, in frame {f}"
    },
    "right": { "w": "writable", "r": "read-only" },
    "number": { "*": "{#}" },
    "starting": { "odd": "odd", "even": "even: it meets no mirror" },
    "ending": { "odd": "odd: another is under way", "even": "even" },
    "backing": { "zero": "zeros", "*": "{}" },
    "part": { "all": "", "*": ", part {} of 0 to 7" },
    "target": { "s": "{}", "d": "{}", "*": "page {}" },
    "reason": {
      "nothere": "it is not where it would be moved from",
      "noframe": "no frame is free where it would go",
      "skipped": "the skip line passes it over",
      "lost": "it got a frame meanwhile",
      "locked": ""
    },
    "locker": { "": "", "a": "actor {#} has its frame locked" }
  },
  "folded": "{f} is copied to {g}, parts {k} to {last}",
  "waits": {
    "lock": ["p b", "the mmap lock of {p}", "mmap lock {p}"],
    "moving": ["p v", "page {v} of {p}, which is being migrated", "{p} {v} moves"],
    "frame": ["f b", "frame {f}, which is locked", "{f} locked"],
    "told": ["m q", "the end of the invalidation that {m} was told of", "{m} told {q}"]
  },
  "waiting": "{a} waits for {blockers}: {what}"
};
