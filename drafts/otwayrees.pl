% Otway-Rees key distribution (Otway and Rees 1987)
%   1. A -> B: M, A, B, {Na, M, A, B}Kas
%   2. B -> S: M, A, B, {Na, M, A, B}Kas, {Nb, M, A, B}Kbs
%   3. S -> B: M, {Na, Kab}Kas, {Nb, Kab}Kbs
%   4. B -> A: M, {Na, Kab}Kas
%   5. A -> B: {s}Kab    (added; B sends the like after message 3)
% Every host plays every role; key(H) is shared by H and the server, hc is the
% attacker's host. Parts that a host only passes on need no rule: the attacker
% passes them on itself. Tuples keep their length, so no part is taken for another.
% literature: secret   secure with tuples of fixed length (Blanchet 2001, Figure 5)
% answer: secret 331 1 0
% sanity: reached attacker(senc(s,kab(ha,hb,m(ha,hb),na(ha,hb),nb(ha,hb,m(ha,hb)))))
% sanity: leak attacker(kab(ha,hb,m(ha,hb),na(ha,hb),nb(ha,hb,m(ha,hb))))

attacker(senc(M,K)) :- attacker(M), attacker(K).
attacker(M) :- attacker(senc(M,K)), attacker(K).
attacker(t2(X,Y)) :- attacker(X), attacker(Y).
attacker(X) :- attacker(t2(X,Y)).
attacker(Y) :- attacker(t2(X,Y)).
attacker(t4(X,Y,Z,W)) :- attacker(X), attacker(Y), attacker(Z), attacker(W).
attacker(X) :- attacker(t4(X,Y,Z,W)).
attacker(Y) :- attacker(t4(X,Y,Z,W)).
attacker(Z) :- attacker(t4(X,Y,Z,W)).
attacker(W) :- attacker(t4(X,Y,Z,W)).

attacker(ha).
attacker(hb).
attacker(hc).
attacker(key(hc)).

% message 1
attacker(m(X,Y)) :- attacker(X), attacker(Y).
attacker(senc(t4(na(X,Y),m(X,Y),X,Y),key(X))) :- attacker(X), attacker(Y).
% message 2
attacker(senc(t4(nb(X,Y,M),M,X,Y),key(Y))) :- attacker(X), attacker(Y), attacker(M).
% message 3, its two parts
attacker(senc(t2(N,kab(X,Y,M,N,O)),key(X))) :- attacker(senc(t4(N,M,X,Y),key(X))), attacker(senc(t4(O,M,X,Y),key(Y))).
attacker(senc(t2(O,kab(X,Y,M,N,O)),key(Y))) :- attacker(senc(t4(N,M,X,Y),key(X))), attacker(senc(t4(O,M,X,Y),key(Y))).
% message 5, from A and from B
attacker(senc(s,K)) :- attacker(senc(t2(na(ha,hb),K),key(ha))).
attacker(senc(s,K)) :- attacker(M), attacker(senc(t2(nb(ha,hb,M),K),key(hb))).

?- attacker(s).
