# one line each, with either quote, commas and semicolons
components: { id: 'a', component: '/main/a.script'; position { x: 1e0, y: +.5; z: -0 } };

embedded_components { id: "b"; type: 'label', data: 'text: "It\'s"' ' line \061\x0a'; font: "/a.font" }  # a field of another tool

# the second `id` counts, and so does the last position
components {
  id: "old" id: "c"
  component: "/main/c.factory"
  position { x: 9 }
  position { }
  properties { id: 'tint', value: '1, 1, 1, 1', type: PROPERTY_TYPE_VECTOR4 }
  properties { id: 'turn', value: '0, 0, 0, 1', type: PROPERTY_TYPE_QUAT, note { by: hand } }
}
version: 1
