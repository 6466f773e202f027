// Of Node's strict assertions those that the checks of rows use.

/** Throws unless a condition holds. */
function ok(condition, message = 'a condition does not hold') {
  if (!condition) throw new Error(message);
}

function equal(found, wanted, message = 'not equal') {
  const texts = [found, wanted].map((it) => JSON.stringify(it));
  ok(Object.is(found, wanted), `${message}: ${texts.join(', wanted ')}`);
}

/** Compares values by their JSON: those of the rows have nothing that JSON leaves out. */
function deepEqual(found, wanted, message) {
  equal(JSON.stringify(found), JSON.stringify(wanted), message);
}

function throws(call, isWanted) {
  let thrown;
  try {
    call();
  } catch (error) {
    thrown = error;
  }
  ok(thrown !== undefined, 'nothing is thrown');
  ok(isWanted(thrown));
}

export default { ok, equal, deepEqual, throws };
