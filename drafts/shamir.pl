% Three-pass protocol without keys in common (A. Shamir, about 1980; Clark and Jacob 1997)
%   1. A -> B: {s}Ka
%   2. B -> A: {{s}Ka}Kb
%   3. A -> B: {s}Kb
% The encryption commutes: of {{M}X}Y and X one gets {M}Y. This is coded by a
% second destructor, once for the attacker and once where A takes off Ka.
% literature: attack   A can't tell who put the second lock on: the attacker uses its own key, or sends message 1 back
% answer: derivable 19 2 2

attacker(senc(M,K)) :- attacker(M), attacker(K).
attacker(M) :- attacker(senc(M,K)), attacker(K).
attacker(senc(M,Y)) :- attacker(senc(senc(M,X),Y)), attacker(X).

attacker(a).

% message 1
attacker(senc(s,ka)).
% message 2: B locks whatever comes
attacker(senc(M,kb)) :- attacker(M).
% message 3: A takes its lock off, from the outside or from under another
attacker(M) :- attacker(senc(M,ka)).
attacker(senc(M,Y)) :- attacker(senc(senc(M,ka),Y)).

?- attacker(s).
