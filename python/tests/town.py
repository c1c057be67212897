"""The small town of examples/town: its text, its plans and their figures, worked out by hand."""

# The town by hand: School lies 6 + 8 minutes from the depot by way of Station, less than the 15 straight ahead, and its
# 5600 metres are less than 2400 + 3500. Harbour lies 6 + 9.5 minutes from the depot and 8 + 9.5 from School.
TOWN_TEXT = """\
instance,1
stop,Depot
stop,Station
stop,School
stop,Harbour
deadhead,Depot,Station,6,2400
deadhead,Depot,School,14,5600
deadhead,Depot,Harbour,16,6600
deadhead,Station,Depot,6,2400
deadhead,Station,School,8,3500
deadhead,Station,Harbour,10,4200
deadhead,School,Depot,14,5600
deadhead,School,Station,8,3500
deadhead,School,Harbour,18,7700
deadhead,Harbour,Depot,16,6600
deadhead,Harbour,Station,10,4200
deadhead,Harbour,School,18,7700
layer,Bus,Depot,3,14000000,40000,85
layer,Minibus,Depot,1,9000000,40000,55
trip,S1,Station,7:00,School,7:20,5200,Bus
trip,S2,School,7:25,Station,7:45,5200,Bus,Minibus
trip,S3,Station,7:30,School,7:50,5200,Bus
trip,H1,Station,7:05,Harbour,7:25,4600,Bus,Minibus
trip,H2,Harbour,7:35,Station,7:55,4600,Bus,Minibus
trip,S4,School,13:00,Station,13:20,5200,Bus
trip,H3,Station,13:05,Harbour,13:25,4600,Bus,Minibus
trip,N1,Station,23:50,Harbour,24:10,4600,Bus,Minibus
trip,N2,Harbour,24:20,Station,24:40,4600,Bus,Minibus
"""

TOWN_NOTES = """\
{0}/drives.csv: added Depot to Harbour, by way of Station: 16 minutes, 6600 metres
{0}/drives.csv: added School to Harbour, by way of Station: 18 minutes, 7700 metres
{0}/drives.csv: added Harbour to Depot, by way of Station: 16 minutes, 6600 metres
{0}/drives.csv: added Harbour to School, by way of Station: 18 minutes, 7700 metres
{0}/drives.csv: shortened Depot to School: 14 in place of 15 minutes by way of Station
{0}/drives.csv: shortened School to Depot: 14 in place of 15 minutes by way of Station
{0}/drives.csv: rounded up the minutes of 2 drives
"""

# Two plans of the town without rests, and one with rests. Block by block, in cost units:
# good     S1 S2: 14000000 + 57 minutes * 40000 + 15200 metres * 85 = 17572000
#          H1 H2 H3: 9000000 + 402 * 40000 + 22800 * 55 = 26334000
#          S3 S4: 14000000 + 362 * 40000 + 15200 * 85 = 29772000
#          N1 N2: 14000000 + 62 * 40000 + 14000 * 85 = 17670000
# present  S1 S3 S4: 14000000 + 392 * 40000 + 23900 * 85 = 31711500
#          S2: 14000000 + 40 * 40000 + 13200 * 85 = 16722000
#          H1 H2: 14000000 + 62 * 40000 + 14000 * 85 = 17670000
#          H3 N1 N2: 9000000 + 707 * 40000 + 22800 * 55 = 38534000
# resting  S1 S2: 17572000
#          H1 H2, rest 8:01 to 12:59, H3, rest 13:41 to 23:44, N1 N2: 9000000 + 166 * 40000 + 41600 * 55 = 17928000
#          S3, rest 8:04 to 12:46, S4: 14000000 + 80 * 40000 + 26400 * 85 = 19444000
GOOD = [("Bus", "S1", "S2"), ("Minibus", "H1", "H2", "H3"), ("Bus", "S3", "S4"), ("Bus", "N1", "N2")]
PRESENT = [("Bus", "S1", "S3", "S4"), ("Bus", "S2"), ("Bus", "H1", "H2"), ("Minibus", "H3", "N1", "N2")]
RESTING = [("Bus", "S1", "S2"), ("Minibus", "H1", "H2", "H3", "N1", "N2"), ("Bus", "S3", "S4")]
GOOD_COST, PRESENT_COST, RESTING_COST = 91348000, 104637500, 54944000

GOOD_SUMMARY = """\
claim                            open
cost                         91348000
bound                        90000000

all vehicles
  vehicles                     4 of 4
  most out at once                  3
    from                        07:24
    to                          07:51
  hours out                     14:43
    in service                   3:00
    driven empty                 0:58
    waiting                     10:45
  kilometres                   67.200
    in service                 43.800
    driven empty               23.400
  cost                       91348000
    of vehicles              51000000
    of time                  35320000
    of distance               5028000

group Bus at Depot
  vehicles                     3 of 3
  most out at once                  2
    from                        07:24
    to                          07:51
  hours out                      8:01
    in service                   2:00
    driven empty                 0:36
    waiting                      5:25
  kilometres                   44.400
    in service                 30.000
    driven empty               14.400
  cost                       65014000
    of vehicles              42000000
    of time                  19240000
    of distance               3774000

group Minibus at Depot
  vehicles                     1 of 1
  most out at once                  1
    from                        06:59
    to                          13:41
  hours out                      6:42
    in service                   1:00
    driven empty                 0:22
    waiting                      5:20
  kilometres                   22.800
    in service                 13.800
    driven empty                9.000
  cost                       26334000
    of vehicles               9000000
    of time                  16080000
    of distance               1254000
"""

DIFFERENCE = """\
                                first           second   second - first
claim                            open             open
cost                          1046.38           913.48
bound                          900.00           900.00

all vehicles
  vehicles                     4 of 4           4 of 4                0
  most out at once                  3                3                0
    from                        07:11            07:24
    to                          07:51            07:51
  hours out                     20:01            14:43            -5:18
    in service                   3:00             3:00             0:00
    driven empty                 1:14             0:58            -0:16
    waiting                     15:47            10:45            -5:02
  kilometres                   73.900           67.200           -6.700
    in service                 43.800           43.800            0.000
    driven empty               30.100           23.400           -6.700
  cost                        1046.38           913.48          -132.90
    of vehicles                510.00           510.00             0.00
    of time                    480.40           353.20          -127.20
    of distance                 55.98            50.28            -5.70
"""

RESTING_SUMMARY = """\
all vehicles
  vehicles                     3 of 4
  most out at once                  3
    from                        07:24
    to                          07:51
  hours out                      5:03
    in service                   3:00
    driven empty                 1:38
    waiting                      0:25
  hours resting                 19:43
  kilometres                   83.200
    in service                 43.800
    driven empty               39.400
  cost                       54944000
    of vehicles              37000000
    of time                  12120000
    of distance               5824000
"""
