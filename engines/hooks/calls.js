'use strict';
// Calls of functions and constructors (11.2.2, 11.2.3), and the running calls of one rewritten file.

module.exports = function makeCalls(kept, facts, objects, callees, recorder) {
  const { apply, construct, TypeError } = kept;
  const { row, leave } = recorder;

  function preRow(id, f, self, args, byNew) {
    let list = '' + args.length;
    for (let i = 0; i < args.length; i++) {
      const one = recorder.value(args[i]);
      if (one === null) return leave(id, 'InvokePre', facts.refusal.reason);
      list += ' ' + one;
    }
    return row(id, 'InvokePre', facts.number(f), callees.calleeFact(f), recorder.value(self), list, facts.flag(byNew));
  }
  function postRow(id, f, result, preTold) {
    if (preTold) row(id, 'InvokePost', facts.number(f), recorder.value(result));
    else leave(id, 'InvokePost', 'its InvokePre left out');
  }

  // Running calls of the file, innermost first. Only a call whose entry was told has its exit told.
  let running = null;

  return {
    invoke(id, f, self, args, word) {
      if (typeof f !== 'function') throw new TypeError(word + ' is not a function');
      const wasTold = preRow(id, f, self, args, false);
      const result = apply(f, self, args);
      postRow(id + 1, f, result, wasTold);
      return result;
    },
    construct(id, f, args) {
      if (!callees.constructs(f)) throw new TypeError('callee is not a constructor');
      const wasTold = preRow(id, f, undefined, args, true);
      const result = construct(f, args);
      postRow(id + 1, f, result, wasTold);
      return result;
    },

    // `count` is below 0 where the name `arguments` means something else in the function.
    enter(id, number, self, count, byNew) {
      const arity = count < 0 ? facts.outside('arguments hidden') : count;
      const told = row(id, 'FunctionEnter', number, recorder.value(self), arity, facts.flag(byNew));
      running = { exit: id + 1, number, told, outer: running };
      return running;
    },
    // A call further in, whose exit found no stack left, ends here, too.
    leave(call) {
      let ended;
      do {
        ended = running;
        running = ended.outer;
        if (ended.told) row(ended.exit, 'FunctionExit', ended.number);
        else leave(ended.exit, 'FunctionExit', 'its FunctionEnter left out');
      } while (ended !== call);
    }
  };
};
