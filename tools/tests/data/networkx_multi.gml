graph [
  directed 1
  multigraph 1
  node [
    id 0
    label "0"
  ]
  node [
    id 1
    label "1"
  ]
  node [
    id 2
    label "2"
  ]
  edge [
    source 0
    target 1
    key 0
    metric 7
  ]
  edge [
    source 0
    target 1
    key 1
    metric 5
  ]
  edge [
    source 1
    target 0
    key 0
    metric 9
  ]
  edge [
    source 1
    target 2
    key 0
    metric 1
  ]
  edge [
    source 2
    target 2
    key 0
    metric 1
  ]
]
