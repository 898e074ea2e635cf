% Needham-Schroeder with shared keys, one old session key lost (1978; weakness: Denning and Sacco 1981)
%   1. A -> S: A, B, Na
%   2. S -> A: {Na, B, Kab, {Kab, A}Kbs}Kas
%   3. A -> B: {Kab, A}Kbs
%   4. B -> A: {4, Nb}Kab
%   5. A -> B: {5, Nb}Kab
%   6. B -> A: {s}Kab    (added, in new sessions only)
% As nssk.pl, but nonces carry the session they belong to, old or new, and the
% key that the server made for A and B in the old session is known to the
% attacker. The secret is sent by B, and by A, in the new session only.
% literature: attack   B can't see that a ticket is old (Denning and Sacco 1981)
% answer: derivable 241 2 12

attacker(senc(M,K)) :- attacker(M), attacker(K).
attacker(M) :- attacker(senc(M,K)), attacker(K).
attacker(t2(X,Y)) :- attacker(X), attacker(Y).
attacker(X) :- attacker(t2(X,Y)).
attacker(Y) :- attacker(t2(X,Y)).
attacker(t4(X,Y,Z,W)) :- attacker(X), attacker(Y), attacker(Z), attacker(W).
attacker(X) :- attacker(t4(X,Y,Z,W)).
attacker(Y) :- attacker(t4(X,Y,Z,W)).
attacker(Z) :- attacker(t4(X,Y,Z,W)).
attacker(W) :- attacker(t4(X,Y,Z,W)).
attacker(m4(X)) :- attacker(X).
attacker(X) :- attacker(m4(X)).
attacker(m5(X)) :- attacker(X).
attacker(X) :- attacker(m5(X)).

attacker(ha).
attacker(hb).
attacker(hc).
attacker(key(hc)).
attacker(old).
attacker(new).
% the lost key
attacker(kab(ha,hb,na(old,hb))).

% message 1, in session I
attacker(na(I,Y)) :- attacker(I), attacker(Y).
% message 2
attacker(senc(t4(N,Y,kab(X,Y,N),senc(t2(kab(X,Y,N),X),key(Y))),key(X))) :- attacker(X), attacker(Y), attacker(N).
% message 3
attacker(T) :- attacker(I), attacker(Y), attacker(senc(t4(na(I,Y),Y,K,T),key(ha))).
% message 4
attacker(senc(m4(nb(I,X,K)),K)) :- attacker(I), attacker(senc(t2(K,X),key(hb))).
% message 5
attacker(senc(m5(N),K)) :- attacker(I), attacker(Y), attacker(senc(t4(na(I,Y),Y,K,T),key(ha))), attacker(senc(m4(N),K)).
% message 6
attacker(senc(s,K)) :- attacker(senc(t2(K,ha),key(hb))), attacker(senc(m5(nb(new,ha,K)),K)).
attacker(senc(s,K)) :- attacker(senc(t4(na(new,hb),hb,K,T),key(ha))), attacker(senc(m4(N),K)).

?- attacker(s).
