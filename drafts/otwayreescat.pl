% Otway-Rees with plain concatenation (Otway and Rees 1987; type flaw: Clark and Jacob 1997)
%   1. A -> B: M, A, B, {Na, M, A, B}Kas
%   2. B -> S: M, A, B, {Na, M, A, B}Kas, {Nb, M, A, B}Kbs
%   3. S -> B: M, {Na, Kab}Kas, {Nb, Kab}Kbs
%   4. B -> A: M, {Na, Kab}Kas
%   5. A -> B: {s}Kab    (added; B sends the like after message 3)
% As otwayrees.pl, but tuples are pairs nested to the right, so that the rest
% M, A, B of the first message has the shape of a key, and only A, B and the
% server run it (kas and kbs are the long-term keys): the attacker needs no account.
% literature: attack   message 1's cipher comes back to A as message 4, or message 2's to B as message 3: M, A, B is taken for the key
% answer: derivable 131 3 7

attacker(senc(M,K)) :- attacker(M), attacker(K).
attacker(M) :- attacker(senc(M,K)), attacker(K).
attacker(pair(X,Y)) :- attacker(X), attacker(Y).
attacker(X) :- attacker(pair(X,Y)).
attacker(Y) :- attacker(pair(X,Y)).

attacker(ha).
attacker(hb).
attacker(c).

% message 1
attacker(m).
attacker(senc(pair(na,pair(m,pair(ha,hb))),kas)).
% message 2
attacker(senc(pair(nb(M),pair(M,pair(ha,hb))),kbs)) :- attacker(M).
% message 3, its two parts
attacker(senc(pair(N,kab(M,N,O)),kas)) :- attacker(senc(pair(N,pair(M,pair(ha,hb))),kas)), attacker(senc(pair(O,pair(M,pair(ha,hb))),kbs)).
attacker(senc(pair(O,kab(M,N,O)),kbs)) :- attacker(senc(pair(N,pair(M,pair(ha,hb))),kas)), attacker(senc(pair(O,pair(M,pair(ha,hb))),kbs)).
% message 5, from A and from B
attacker(senc(s,K)) :- attacker(senc(pair(na,K),kas)).
attacker(senc(s,K)) :- attacker(M), attacker(senc(pair(nb(M),K),kbs)).

?- attacker(s).
