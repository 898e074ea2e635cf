% Yahalom key distribution (R. Yahalom, published in Burrows, Abadi and Needham 1989)
%   1. A -> B: A, Na
%   2. B -> S: B, {A, Na, Nb}Kbs
%   3. S -> A: {B, Kab, Na, Nb}Kas, {A, Kab}Kbs
%   4. A -> B: {A, Kab}Kbs, {Nb}Kab
%   5. B -> A: {s}Kab    (added; A sends the like after message 3)
% Every host plays every role; key(H) is shared by H and the server, hc is the
% attacker's host. What a host only passes on needs no rule.
% literature: secret   Nb stays secret and ties the key to the run (Paulson 2001; Blanchet 2001, Figure 5)
% answer: secret 124 1 0
% sanity: reached attacker(senc(s,kab(ha,hb,na(ha,hb),nb(ha,hb,na(ha,hb)))))
% sanity: leak attacker(key(ha))

attacker(senc(M,K)) :- attacker(M), attacker(K).
attacker(M) :- attacker(senc(M,K)), attacker(K).
attacker(t2(X,Y)) :- attacker(X), attacker(Y).
attacker(X) :- attacker(t2(X,Y)).
attacker(Y) :- attacker(t2(X,Y)).
attacker(t3(X,Y,Z)) :- attacker(X), attacker(Y), attacker(Z).
attacker(X) :- attacker(t3(X,Y,Z)).
attacker(Y) :- attacker(t3(X,Y,Z)).
attacker(Z) :- attacker(t3(X,Y,Z)).
attacker(t4(X,Y,Z,W)) :- attacker(X), attacker(Y), attacker(Z), attacker(W).
attacker(X) :- attacker(t4(X,Y,Z,W)).
attacker(Y) :- attacker(t4(X,Y,Z,W)).
attacker(Z) :- attacker(t4(X,Y,Z,W)).
attacker(W) :- attacker(t4(X,Y,Z,W)).

attacker(ha).
attacker(hb).
attacker(hc).
attacker(key(hc)).

% message 1
attacker(na(X,Y)) :- attacker(X), attacker(Y).
% message 2
attacker(senc(t3(X,N,nb(X,Y,N)),key(Y))) :- attacker(X), attacker(Y), attacker(N).
% message 3, its two parts
attacker(senc(t4(Y,kab(X,Y,N,O),N,O),key(X))) :- attacker(Y), attacker(senc(t3(X,N,O),key(Y))).
attacker(senc(t2(X,kab(X,Y,N,O)),key(Y))) :- attacker(Y), attacker(senc(t3(X,N,O),key(Y))).
% message 4
attacker(senc(O,K)) :- attacker(X), attacker(Y), attacker(senc(t4(Y,K,na(X,Y),O),key(X))).
% message 5, from B and from A
attacker(senc(s,K)) :- attacker(N), attacker(senc(t2(ha,K),key(hb))), attacker(senc(nb(ha,hb,N),K)).
attacker(senc(s,K)) :- attacker(senc(t4(hb,K,na(ha,hb),O),key(ha))).

?- attacker(s).
