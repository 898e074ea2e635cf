% Needham-Schroeder with shared keys, with the subtraction (Needham and Schroeder 1978)
%   1. A -> S: A, B, Na
%   2. S -> A: {Na, B, Kab, {Kab, A}Kbs}Kas
%   3. A -> B: {Kab, A}Kbs
%   4. B -> A: {Nb}Kab
%   5. A -> B: {Nb - 1}Kab
%   6. B -> A: {s}Kab    (added; A sends the like after message 4)
% As nssk.pl, but with messages 4 and 5 as published; minus(N) is N - 1.
% literature: secret   the known weakness needs an old session key in the attacker's hands
% note: no end is reached. A's answer passes for a message 4, so A takes 1 away again and again (Blanchet 2001, section 6)
% answer: room 5 512 0 0

attacker(senc(M,K)) :- attacker(M), attacker(K).
attacker(M) :- attacker(senc(M,K)), attacker(K).
attacker(t2(X,Y)) :- attacker(X), attacker(Y).
attacker(X) :- attacker(t2(X,Y)).
attacker(Y) :- attacker(t2(X,Y)).
attacker(t4(X,Y,Z,W)) :- attacker(X), attacker(Y), attacker(Z), attacker(W).
attacker(X) :- attacker(t4(X,Y,Z,W)).
attacker(Y) :- attacker(t4(X,Y,Z,W)).
attacker(Z) :- attacker(t4(X,Y,Z,W)).
attacker(W) :- attacker(t4(X,Y,Z,W)).
attacker(minus(X)) :- attacker(X).
attacker(X) :- attacker(minus(X)).

attacker(ha).
attacker(hb).
attacker(hc).
attacker(key(hc)).

% message 1: names and nonce in the clear
attacker(na(Y)) :- attacker(Y).
% message 2: the server answers anyone
attacker(senc(t4(N,Y,kab(X,Y,N),senc(t2(kab(X,Y,N),X),key(Y))),key(X))) :- attacker(X), attacker(Y), attacker(N).
% message 3
attacker(T) :- attacker(Y), attacker(senc(t4(na(Y),Y,K,T),key(ha))).
% message 4
attacker(senc(nb(X,K),K)) :- attacker(senc(t2(K,X),key(hb))).
% message 5
attacker(senc(minus(N),K)) :- attacker(Y), attacker(senc(t4(na(Y),Y,K,T),key(ha))), attacker(senc(N,K)).
% message 6, from B and from A
attacker(senc(s,K)) :- attacker(senc(t2(K,ha),key(hb))), attacker(senc(minus(nb(ha,K)),K)).
attacker(senc(s,K)) :- attacker(senc(t4(na(hb),hb,K,T),key(ha))), attacker(senc(N,K)).

?- attacker(s).
