#!/usr/bin/env bash
# Compares the three bodies by which a domain leaves its run with the known ones. Their contracts say only that there is
# a departure, since no value that remains has the seat of the domain. So a body that made another call of the domain
# before it leaves would be proved. These make none: each lets the domain leave by one call, whose contract is about the
# seat that it returns.
# usage: tools/leaves.sh
set -euo pipefail
cd "$(dirname "${BASH_SOURCE[0]}")/.."
known='let Some(lent) = domain.take(alloc) else {
return EncodedAnswer::of(AttachedOutcome::NoDomain);
};
let lent = Box::into_inner(lent);
let gone = lent.attached.finish();
EncodedAnswer::of(AttachedOutcome::Left(gone.remains))
let AttachedDomain {
monitor,
attachment,
} = self;
let _ = attachment.leave(&monitor);
let RunningDomain { monitor, domain } = self;
domain.finish(monitor);'

# The body of a function: its file, its first line, and the brace that ends it.
body() { sed -n "/^$2/,/^$3\$/p" "$1" | sed '1,/^ *{$/d; $d; s/^ *//'; }

bodies() {
  body crates/gt_c/src/beginning.rt 'pub extern "C" fn gthost_finish_at(' '}'
  body crates/gt_attached/src/attached.rt '    fn drop(' '    }'
  body crates/gt_run/src/running.rt '    fn drop(' '    }'
}

if ! diff <(echo "$known") <(bodies) >&2; then
  echo "tools/leaves.sh: a domain leaves its run by another body than the known ones" >&2
  exit 1
fi
echo "three bodies by which a domain leaves its run, and no other call in them"
