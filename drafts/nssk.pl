% Needham-Schroeder with shared keys and a server (Needham and Schroeder 1978)
%   1. A -> S: A, B, Na
%   2. S -> A: {Na, B, Kab, {Kab, A}Kbs}Kas
%   3. A -> B: {Kab, A}Kbs
%   4. B -> A: {4, Nb}Kab
%   5. A -> B: {5, Nb}Kab
%   6. B -> A: {s}Kab    (added; A sends the like after message 4)
% key(H) is the key that host H shares with the server; hc is the attacker's own
% host. Messages 4 and 5 carry a mark instead of Nb and Nb - 1, since the
% subtraction never comes to an end (nsskminus.pl). No old key leaks here.
% literature: secret   the known weakness needs an old session key in the attacker's hands
% answer: secret 182 1 0
% sanity: reached attacker(senc(s,kab(ha,hb,na(hb))))
% sanity: leak attacker(key(hb))

attacker(senc(M,K)) :- attacker(M), attacker(K).
attacker(M) :- attacker(senc(M,K)), attacker(K).
attacker(t2(X,Y)) :- attacker(X), attacker(Y).
attacker(X) :- attacker(t2(X,Y)).
attacker(Y) :- attacker(t2(X,Y)).
attacker(t4(X,Y,Z,W)) :- attacker(X), attacker(Y), attacker(Z), attacker(W).
attacker(X) :- attacker(t4(X,Y,Z,W)).
attacker(Y) :- attacker(t4(X,Y,Z,W)).
attacker(Z) :- attacker(t4(X,Y,Z,W)).
attacker(W) :- attacker(t4(X,Y,Z,W)).
attacker(m4(X)) :- attacker(X).
attacker(X) :- attacker(m4(X)).
attacker(m5(X)) :- attacker(X).
attacker(X) :- attacker(m5(X)).

attacker(ha).
attacker(hb).
attacker(hc).
attacker(key(hc)).

% message 1: names and nonce in the clear
attacker(na(Y)) :- attacker(Y).
% message 2: the server answers anyone
attacker(senc(t4(N,Y,kab(X,Y,N),senc(t2(kab(X,Y,N),X),key(Y))),key(X))) :- attacker(X), attacker(Y), attacker(N).
% message 3
attacker(T) :- attacker(Y), attacker(senc(t4(na(Y),Y,K,T),key(ha))).
% message 4
attacker(senc(m4(nb(X,K)),K)) :- attacker(senc(t2(K,X),key(hb))).
% message 5
attacker(senc(m5(N),K)) :- attacker(Y), attacker(senc(t4(na(Y),Y,K,T),key(ha))), attacker(senc(m4(N),K)).
% message 6, from B and from A
attacker(senc(s,K)) :- attacker(senc(t2(K,ha),key(hb))), attacker(senc(m5(nb(ha,K)),K)).
attacker(senc(s,K)) :- attacker(senc(t4(na(hb),hb,K,T),key(ha))), attacker(senc(m4(N),K)).

?- attacker(s).
