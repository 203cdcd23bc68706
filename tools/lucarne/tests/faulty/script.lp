#script (lua) function main(p) end #end.
a.
