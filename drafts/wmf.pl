% Wide-mouthed frog (M. Burrows, published in Burrows, Abadi and Needham 1989)
%   1. A -> S: A, {Ta, B, Kab}Kas
%   2. S -> B: {Ts, A, Kab}Kbs
%   3. B -> A: {s}Kab    (added)
% Time stamps are one public value, as old messages can be sent again anyway.
% Every host plays every role; hc is the attacker's host, key(H) is shared with the server.
% literature: secret   the known attacks prolong a key's life (Anderson and Needham 1995, Lowe 1997), they don't reveal it
% answer: secret 65 1 0
% sanity: reached attacker(senc(s,kab(ha,hb)))
% sanity: leak attacker(key(ha))

attacker(senc(M,K)) :- attacker(M), attacker(K).
attacker(M) :- attacker(senc(M,K)), attacker(K).
attacker(t3(X,Y,Z)) :- attacker(X), attacker(Y), attacker(Z).
attacker(X) :- attacker(t3(X,Y,Z)).
attacker(Y) :- attacker(t3(X,Y,Z)).
attacker(Z) :- attacker(t3(X,Y,Z)).

attacker(ha).
attacker(hb).
attacker(hc).
attacker(key(hc)).
attacker(time).

% message 1
attacker(senc(t3(time,Y,kab(X,Y)),key(X))) :- attacker(X), attacker(Y).
% message 2
attacker(senc(t3(time,X,K),key(Y))) :- attacker(X), attacker(senc(t3(time,Y,K),key(X))).
% message 3
attacker(senc(s,K)) :- attacker(senc(t3(time,ha,K),key(hb))).

?- attacker(s).
