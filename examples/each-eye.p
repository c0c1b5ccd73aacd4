% A retry cap, compared with the right count: see examples/README.md.
%
% left, right, both: how often the left eye, the right eye and the two together were shown a spot
% cap: how often a spot may be shown;  more: an order of these numbers

cnf(irreflexive, axiom, ~more(X, X)).
cnf(transitive,  axiom, ~more(X, Y) | ~more(Y, Z) | more(X, Z)).
cnf(total,       axiom, more(X, Y) | more(Y, X) | X = Y).

cnf(both_left,  axiom, more(both, left)).
cnf(both_right, axiom, more(both, right)).

% a test stops if its own count passes the cap ..
cnf(left_over,  axiom, ~more(left, cap) | stop_left).
cnf(right_over, axiom, ~more(right, cap) | stop_right).
% .. and may stop only then
cnf(left_stop,  axiom, ~stop_left | more(left, cap)).
cnf(right_stop, axiom, ~stop_right | more(right, cap)).

% a map is patchy exactly if its test has stopped
cnf(left_early,   definition, ~stop_left | patchy_left).
cnf(left_patchy,  definition, ~patchy_left | stop_left).
cnf(right_early,  definition, ~stop_right | patchy_right).
cnf(right_patchy, definition, ~patchy_right | stop_right).

/* The counter-case: the right eye's own count is within the cap, the left eye's map is whole, and yet the right eye's
   map is patchy. */
cnf(within, negated_conjecture, more(cap, right)).
cnf(whole,  negated_conjecture, ~patchy_left).
cnf(patchy, negated_conjecture, patchy_right).
