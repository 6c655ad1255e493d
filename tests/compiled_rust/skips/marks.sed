# A callback that answers with an error of its own.
s/^token 3 /error /
t
# Others have the error made, as it is made where nothing matches.
s/^token 6 /error /
s/^token 8 /error /
s/^error \(.*\)/made \1\n&/
