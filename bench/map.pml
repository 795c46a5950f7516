/* The programs `map N` of explore_sizes.sh as a model for SPIN. An owner grants N pages, each to another domain, raises
   a flag and revokes all of them. Each other domain awaits the flag, maps its page, stores to it and unmaps it. A step
   of the monitor is a statement of the model: a look at a word, an exchange, a store, a subtraction, an access. A map
   makes four tries. SPIN has no texts: it counts states. */
#ifndef N
#define N 4
#endif
#define TRIES 4

byte body[N];    /* the domain in the body word of an entry */
bit valid[N];    /* the control word: its kind, */
byte pins[N];    /* and its count of write pins */
byte frame[N];
bit raised;

proctype owner() {
  byte at;
  for (at : 0 .. N - 1) {
    body[at] = at + 2;
    valid[at] = 1
  }
  raised = 1;
  for (at : 0 .. N - 1) {
    if
    :: atomic { valid[at] == 1 && pins[at] == 0 -> valid[at] = 0 }
    :: atomic { valid[at] == 1 && pins[at] != 0 -> skip }
    fi
  }
}

proctype mapper(byte at) {
  byte tries, looked_pins, looked_body;
  bit looked_valid;
  raised == 1;
  skip; /* the header of the owner's table */
try:
  atomic { looked_valid = valid[at]; looked_pins = pins[at] };
  if
  :: looked_valid == 0 -> goto refused
  :: else -> skip
  fi;
  looked_body = body[at];
  if
  :: atomic { valid[at] == looked_valid && pins[at] == looked_pins -> pins[at]++ }; goto mapped
  :: atomic { (valid[at] != looked_valid || pins[at] != looked_pins) -> tries++ };
    if
    :: tries < TRIES -> goto try
    :: else -> goto refused
    fi
  fi;
mapped:
  frame[at] = 1;
  pins[at]--;
refused:
  skip
}

init {
  byte at;
  atomic {
    run owner();
    for (at : 0 .. N - 1) { run mapper(at) }
  }
}
