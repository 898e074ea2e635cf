% TMN, key exchange for mobile radio (Tatebayashi, Matsuzaki and Newman 1989)
%   1. A -> S: B, {Ka}pkS
%   2. S -> B: A
%   3. B -> S: A, {Kb}pkS
%   4. S -> A: B, {Kb}Ka
%   5. A -> B: {s}Kb     (added)
% Ka is A's key for this run, Kb the session key. The server doesn't ask who
% sent a cipher. Message 4 is made from any two ciphers that reach the server.
% literature: attack   a cipher of B's, sent in again as one's own message 3, comes back under a key one chose (Simmons 1994, Lowe and Roscoe 1997)
% answer: derivable 64 3 8

attacker(penc(M,P)) :- attacker(M), attacker(P).
attacker(pk(S)) :- attacker(S).
attacker(M) :- attacker(penc(M,pk(S))), attacker(S).
attacker(senc(M,K)) :- attacker(M), attacker(K).
attacker(M) :- attacker(senc(M,K)), attacker(K).

attacker(pk(sks)).
attacker(ha).
attacker(hb).
attacker(c).

% message 1, A calls Y
attacker(penc(ka(Y),pk(sks))) :- attacker(Y).
% message 3, B is called by X
attacker(penc(kb(X),pk(sks))) :- attacker(X).
% message 4
attacker(senc(L,K)) :- attacker(penc(K,pk(sks))), attacker(penc(L,pk(sks))).
% message 5, from A, and from B after message 3
attacker(senc(s,L)) :- attacker(senc(L,ka(hb))).
attacker(senc(s,kb(ha))) :- attacker(ha).

?- attacker(s).
