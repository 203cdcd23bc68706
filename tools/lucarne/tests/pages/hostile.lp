% Names and labels that would be more than text if they were not escaped.
%name a "<script>window.hacked=1</script>"
%name b "</script><img src=x onerror=window.hacked=1>"
%name c "' onmouseover='window.hacked=1' & &lt; {{TITLE}} <!--"
{ a; b; c }.
p("</style><script>window.hacked=1</script>", "\" onfocus=window.hacked=1 x=\"") :- a.      % <script>window.hacked=1</script>
p("a,b", 1) :- b, not c.
-q(1) :- a, b.
q(1) :- not a.
