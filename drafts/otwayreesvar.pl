% Otway-Rees with B's nonce in the clear (variant from Burrows, Abadi and Needham 1989; attack: Paulson 1998)
%   1. A -> B: Na, A, B, {Na, A, B}Kas
%   2. B -> S: Na, A, B, {Na, A, B}Kas, Nb, {Na, A, B}Kbs
%   3. S -> B: Na, {Na, Kab}Kas, {Nb, Kab}Kbs
%   4. B -> A: Na, {Na, Kab}Kas
%   5. A -> B: {s}Kab    (added; B sends the like after message 3)
% Every host plays every role; hc is the attacker's host.
% literature: attack   Nb isn't bound to the names: the server puts any nonce beside a key it made for hc (Paulson 1998)
% answer: derivable 251 2 14

attacker(senc(M,K)) :- attacker(M), attacker(K).
attacker(M) :- attacker(senc(M,K)), attacker(K).
attacker(t2(X,Y)) :- attacker(X), attacker(Y).
attacker(X) :- attacker(t2(X,Y)).
attacker(Y) :- attacker(t2(X,Y)).
attacker(t3(X,Y,Z)) :- attacker(X), attacker(Y), attacker(Z).
attacker(X) :- attacker(t3(X,Y,Z)).
attacker(Y) :- attacker(t3(X,Y,Z)).
attacker(Z) :- attacker(t3(X,Y,Z)).

attacker(ha).
attacker(hb).
attacker(hc).
attacker(key(hc)).

% message 1
attacker(na(X,Y)) :- attacker(X), attacker(Y).
attacker(senc(t3(na(X,Y),X,Y),key(X))) :- attacker(X), attacker(Y).
% message 2
attacker(nb(X,Y,N)) :- attacker(X), attacker(Y), attacker(N).
attacker(senc(t3(N,X,Y),key(Y))) :- attacker(X), attacker(Y), attacker(N).
% message 3, its two parts
attacker(senc(t2(N,kab(X,Y,N,O)),key(X))) :- attacker(O), attacker(senc(t3(N,X,Y),key(X))), attacker(senc(t3(N,X,Y),key(Y))).
attacker(senc(t2(O,kab(X,Y,N,O)),key(Y))) :- attacker(O), attacker(senc(t3(N,X,Y),key(X))), attacker(senc(t3(N,X,Y),key(Y))).
% message 5, from A and from B
attacker(senc(s,K)) :- attacker(senc(t2(na(ha,hb),K),key(ha))).
attacker(senc(s,K)) :- attacker(N), attacker(senc(t2(nb(ha,hb,N),K),key(hb))).

?- attacker(s).
