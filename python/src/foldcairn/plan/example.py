"""The plan that `foldcairn new` writes: a small hall with a survey of one half, which runs, and whose requirements are judged in a minute.

Tested, not proved.
"""

from __future__ import annotations

PLAN = """\
# A plan of a small hall. docs/PLAN-FILE.md explains each key; all times are in seconds, all lengths in metres.
#
#     foldcairn verify plan.toml                     are the requirements met, and how sure is that?
#     foldcairn report plan.toml                     report.html, for whoever decides on it
#     foldcairn sample plan.toml                     how likely it is, over many draws

[plan]
name = "Small hall"
site = "Example"
profile = 2        # frames of 5 s, payloads of up to 96 bytes
sends = 3
contend = 3
hours = 1.0        # the length of a run
seeds = 200        # how many draws a verdict may use at most

[tables]           # CSV files beside this one; other names of columns are known too, such as tx, rx and prr
nodes = "nodes.csv"
links = "survey.csv"
streams = "streams.csv"

[floor]
extent = [0.0, 0.0, 60.0, 30.0]
height = 4.0
floors = 2

[losses]           # what was measured, and a model of path loss where nothing was
from = "both"
preset = "factory-light-clutter"
unheard = "positions"

[[host]]
node = "G-1"
rank = 0

[[host]]           # serves if the first one fails
node = "G-2"
rank = 1

[[event]]          # something large stands before S-03 for a minute, at a time that each draw chooses
name = "forklift"
node = "S-03"
between = [600.0, 3000.0]
for = 60.0
ratio = 0.1

[[requirement]]
name = "valves act in time"
tag = "control"
share = 0.95

[[requirement]]
name = "alarms arrive"
tag = "alarm"
ratio = 0.95

[[requirement]]
name = "all nodes join"
joined = 120.0
"""

NODES = """\
name,id,x,y,floor,powered,tags
G-1,1,12,15,0,mains,gateway
G-2,2,48,15,0,mains,gateway
S-01,3,5,5,0,2xAA,control
S-02,4,20,24,0,2xAA,control
S-03,5,32,10,0,2xAA,control
S-04,6,44,22,0,2xAA,control
V-01,7,8,26,0,mains,valve
V-02,8,26,14,0,mains,valve
V-03,9,52,10,0,mains,valve
A-01,10,15,10,1,2xAA,alarm
A-02,11,40,18,1,2xAA,alarm
A-03,12,50,19,1,2xAA,alarm
"""

# Of 200 probes each.
SURVEY = """\
from,to,sent,received,both
G-1,S-01,200,199,true
G-1,S-02,200,198,true
G-1,V-01,200,197,true
G-1,V-02,200,199,true
S-01,V-01,200,181,true
S-02,V-01,200,198,true
S-02,V-02,200,196,true
S-01,S-02,200,174,true
G-1,S-03,200,190,true
"""

STREAMS = """\
name,from,to,every,sporadic,deadline,interval,start,keep_alive,tags
level 1,S-01,V-01,30,,35,10,60,,control
level 2,S-02,V-01,30,,35,10,90,,control
level 3,S-03,V-02,30,,35,10,120,,control
level 4,S-04,V-03,30,,35,10,150,,control
alarm 1,A-01,hosts,,120,20,8,180,100,alarm
alarm 2,A-02,hosts,,120,20,8,210,100,alarm
alarm 3,A-03,hosts,,120,20,8,240,100,alarm
"""

FILES = {"plan.toml": PLAN, "nodes.csv": NODES, "survey.csv": SURVEY, "streams.csv": STREAMS}
