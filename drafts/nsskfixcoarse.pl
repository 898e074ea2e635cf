% Needham-Schroeder with shared keys, corrected, all keys of old sessions lost (Needham and Schroeder 1987)
%   1. A -> B: A
%   2. B -> A: {A, Jb}Kbs
%   3. A -> S: A, B, Na, {A, Jb}Kbs
%   4. S -> A: {Na, B, Kab, {Kab, Jb, A}Kbs}Kas
%   5. A -> B: {Kab, Jb, A}Kbs
%   6. B -> A: {6, Nb}Kab
%   7. A -> B: {7, Nb}Kab
%   8. B -> A: {s}Kab    (added, in new sessions only)
% As nsskfixleak.pl, but the server's keys carry a session too, and every key of an old
% session is lost, whatever nonces it was made from. A's nonce has no session here, and
% only B sends the secret.
% literature: secret   the ticket now holds B's own nonce Jb, so an old one is refused
% note: a false attack: with one attacker predicate for old and new, a nonce of the new session enters an old one (Blanchet 2001, section 5.5)
% answer: derivable 270 2 11

attacker(senc(M,K)) :- attacker(M), attacker(K).
attacker(M) :- attacker(senc(M,K)), attacker(K).
attacker(t2(X,Y)) :- attacker(X), attacker(Y).
attacker(X) :- attacker(t2(X,Y)).
attacker(Y) :- attacker(t2(X,Y)).
attacker(t3(X,Y,Z)) :- attacker(X), attacker(Y), attacker(Z).
attacker(X) :- attacker(t3(X,Y,Z)).
attacker(Y) :- attacker(t3(X,Y,Z)).
attacker(Z) :- attacker(t3(X,Y,Z)).
attacker(t4(X,Y,Z,W)) :- attacker(X), attacker(Y), attacker(Z), attacker(W).
attacker(X) :- attacker(t4(X,Y,Z,W)).
attacker(Y) :- attacker(t4(X,Y,Z,W)).
attacker(Z) :- attacker(t4(X,Y,Z,W)).
attacker(W) :- attacker(t4(X,Y,Z,W)).
attacker(m6(X)) :- attacker(X).
attacker(X) :- attacker(m6(X)).
attacker(m7(X)) :- attacker(X).
attacker(X) :- attacker(m7(X)).

attacker(ha).
attacker(hb).
attacker(hc).
attacker(key(hc)).
attacker(old).
attacker(new).
attacker(kab(old,X,Y,N,J)) :- attacker(X), attacker(Y), attacker(N), attacker(senc(t2(X,J),key(Y))).

% message 2, in session I, be it old or new
attacker(senc(t2(X,jb(I,X)),key(hb))) :- attacker(X).
% message 3: A's nonce
attacker(na(Y)) :- attacker(Y).
% message 4
attacker(senc(t4(N,Y,kab(I,X,Y,N,J),senc(t3(kab(I,X,Y,N,J),J,X),key(Y))),key(X))) :- attacker(X), attacker(Y), attacker(N), attacker(senc(t2(X,J),key(Y))).
% message 5
attacker(T) :- attacker(Y), attacker(senc(t4(na(Y),Y,K,T),key(ha))).
% message 6
attacker(senc(m6(nb(I,X,K)),K)) :- attacker(senc(t3(K,jb(I,X),X),key(hb))).
% message 7
attacker(senc(m7(N),K)) :- attacker(Y), attacker(senc(t4(na(Y),Y,K,T),key(ha))), attacker(senc(m6(N),K)).
% message 8
attacker(senc(s,K)) :- attacker(senc(t3(K,jb(new,ha),ha),key(hb))), attacker(senc(m7(nb(new,ha,K)),K)).

?- attacker(s).
