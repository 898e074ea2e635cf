% Neuman-Stubblebine with a mark in the ticket (Neuman and Stubblebine 1993; remedy in the manner of Abadi and Needham 1996)
%   1. A -> B: A, Na
%   2. B -> S: B, {A, Na, Tb}Kbs, Nb
%   3. S -> A: {B, Na, Kab, Tb}Kas, {ticket, A, Kab, Tb}Kbs, Nb
%   4. A -> B: {ticket, A, Kab, Tb}Kbs, {Nb}Kab
%   5. B -> A: {s}Kab    (added; A sends the like after message 3)
% As neustubb.pl, but the ticket has a shape of its own: tk(..) instead of t3(..).
% literature: secret   once no cipher can stand in for another the key stays between A and B
% answer: secret 158 1 0
% sanity: reached attacker(senc(s,kab(ha,hb,na(ha,hb))))
% sanity: leak attacker(key(hb))

attacker(senc(M,K)) :- attacker(M), attacker(K).
attacker(M) :- attacker(senc(M,K)), attacker(K).
attacker(t3(X,Y,Z)) :- attacker(X), attacker(Y), attacker(Z).
attacker(X) :- attacker(t3(X,Y,Z)).
attacker(Y) :- attacker(t3(X,Y,Z)).
attacker(Z) :- attacker(t3(X,Y,Z)).
attacker(tk(X,Y,Z)) :- attacker(X), attacker(Y), attacker(Z).
attacker(X) :- attacker(tk(X,Y,Z)).
attacker(Y) :- attacker(tk(X,Y,Z)).
attacker(Z) :- attacker(tk(X,Y,Z)).
attacker(t4(X,Y,Z,W)) :- attacker(X), attacker(Y), attacker(Z), attacker(W).
attacker(X) :- attacker(t4(X,Y,Z,W)).
attacker(Y) :- attacker(t4(X,Y,Z,W)).
attacker(Z) :- attacker(t4(X,Y,Z,W)).
attacker(W) :- attacker(t4(X,Y,Z,W)).

attacker(ha).
attacker(hb).
attacker(hc).
attacker(key(hc)).
attacker(time).

attacker(na(X,Y)) :- attacker(X), attacker(Y).
attacker(senc(t3(X,N,time),key(Y))) :- attacker(X), attacker(Y), attacker(N).
attacker(nb(X,Y,N)) :- attacker(X), attacker(Y), attacker(N).
attacker(senc(t4(Y,N,kab(X,Y,N),T),key(X))) :- attacker(senc(t3(X,N,T),key(Y))).
attacker(senc(tk(X,kab(X,Y,N),T),key(Y))) :- attacker(senc(t3(X,N,T),key(Y))).
attacker(senc(O,K)) :- attacker(O), attacker(senc(t4(Y,na(X,Y),K,T),key(X))).
attacker(senc(s,K)) :- attacker(N), attacker(senc(tk(ha,K,time),key(hb))), attacker(senc(nb(ha,hb,N),K)).
attacker(senc(s,K)) :- attacker(senc(t4(hb,na(ha,hb),K,T),key(ha))).

?- attacker(s).
