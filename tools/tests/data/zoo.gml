graph [
  DateObtained "22/10/10"
  GeoLocation "Country"
  GeoExtent "Country"
  Network "Example"
  Provenance "Primary"
  Note "Two points of presence
  of one city"
  Source "http://www.example.net/map"
  Version "1.0"
  directed 0
  node [
    id 0
    label "Springfield"
    Country "United States"
    Longitude -89.64371
    Internal 1
    Latitude 39.80172
  ]
  node [
    id 1
    label "S&#227;o Paulo"
    Country "Brazil"
    Longitude -46.63611
    Internal 1
    Latitude -23.5475
  ]
  node [
    id 2
    label "Springfield"
    Country "United States"
    Internal 1
  ]
  node [
    id 3
    label "New York"
    Country "United States"
    Internal 0
  ]
  edge [
    source 0
    target 1
    LinkSpeed "10"
    LinkLabel "10 Gbps"
    LinkSpeedUnits "G"
    LinkSpeedRaw 10000000000.0
  ]
  edge [
    source 0
    target 2
    LinkLabel "1 Gbps"
    LinkSpeedRaw 1000000000.0
  ]
  edge [
    source 2
    target 3
    LinkSpeedRaw 1000000000.0
  ]
  edge [
    source 2
    target 3
    LinkSpeedRaw 2500000000.0
  ]
]
