% Diffie-Hellman with signed halves (ISO/IEC 9798-3 style, after Diffie, van Oorschot and Wiener 1992)
%   1. A -> B: g(x)
%   2. B -> A: g(y), {g(y), g(x), A}skB
%   3. A -> B: {g(x), g(y), B}skA
%   4. A -> B: {s}f(x, g(y))       (added; B sends the like under f(y, g(x)))
% x belongs to the partner that A means, y to what B received. Signatures are
% readable by all. A and B are known by their public keys; the third result h0 of f is used too.
% literature: secret   a half that isn't from the partner is not accepted
% answer: secret 283 1 0
% sanity: reached attacker(senc(s,h1(x(pk(skb)),y(pk(ska),g(x(pk(skb)))))))
% sanity: leak attacker(skb)

attacker(senc(M,K)) :- attacker(M), attacker(K).
attacker(M) :- attacker(senc(M,K)), attacker(K).
attacker(sign(M,S)) :- attacker(M), attacker(S).
attacker(M) :- attacker(sign(M,S)).
attacker(pk(S)) :- attacker(S).
attacker(t3(X,Y,Z)) :- attacker(X), attacker(Y), attacker(Z).
attacker(X) :- attacker(t3(X,Y,Z)).
attacker(Y) :- attacker(t3(X,Y,Z)).
attacker(Z) :- attacker(t3(X,Y,Z)).
attacker(g(X)) :- attacker(X).
attacker(h0(X,Y)) :- attacker(X), attacker(Y).
attacker(h1(X,Y)) :- attacker(X), attacker(Y).
attacker(h1(X,Y)) :- attacker(Y), attacker(g(X)).
attacker(h1(X,Y)) :- attacker(X), attacker(g(Y)).

attacker(a).
attacker(pk(ska)).
attacker(pk(skb)).

% message 1: A means the owner of P
attacker(g(x(P))) :- attacker(P).
% message 2: B answers P
attacker(g(y(P,X))) :- attacker(P), attacker(X).
attacker(sign(t3(g(y(P,X)),X,P),skb)) :- attacker(P), attacker(X).
% message 3
attacker(sign(t3(g(x(pk(S))),Y,pk(S)),ska)) :- attacker(pk(S)), attacker(sign(t3(Y,g(x(pk(S))),pk(ska)),S)).
% message 4 from A, who means B
attacker(senc(s,h1(Y,x(pk(skb))))) :- attacker(sign(t3(g(Y),g(x(pk(skb))),pk(ska)),skb)).
attacker(senc(s,h1(x(pk(skb)),Y))) :- attacker(sign(t3(g(Y),g(x(pk(skb))),pk(ska)),skb)).
attacker(senc(s,h0(x(pk(skb)),Y))) :- attacker(sign(t3(Y,g(x(pk(skb))),pk(ska)),skb)).
% message 4 from B, who means A
attacker(senc(s,h1(X,y(pk(ska),g(X))))) :- attacker(g(X)), attacker(sign(t3(g(X),g(y(pk(ska),g(X))),pk(skb)),ska)).
attacker(senc(s,h1(y(pk(ska),g(X)),X))) :- attacker(g(X)), attacker(sign(t3(g(X),g(y(pk(ska),g(X))),pk(skb)),ska)).
attacker(senc(s,h0(y(pk(ska),X),X))) :- attacker(X), attacker(sign(t3(X,g(y(pk(ska),X)),pk(skb)),ska)).

?- attacker(s).
