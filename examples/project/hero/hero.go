components {
  id: "control"
  component: "/hero/hero.script"
  properties {
    id: "speed"
    value: "150"
    type: PROPERTY_TYPE_NUMBER
  }
}
embedded_components {
  id: "sprite"
  type: "sprite"
  data: "default_animation: \"idle\"\n"
}
