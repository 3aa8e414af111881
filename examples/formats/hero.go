components {
  id: "script"
  component: "/main/hero.script"
  position {
    x: 1.5
    y: -2.0e-1
    z: 0.0
  }
  rotation {
    z: 0.70710677
    w: 7.0710677E-1
  }
  properties {
    id: "speed"
    value: "120.0"
    type: PROPERTY_TYPE_NUMBER
  }
  properties {
    id: "home"
    value: "10.0, 20.0, 0.5"
    type: PROPERTY_TYPE_VECTOR3
  }
  property_decls {
    number_entries {
      key: "speed"
      id: 4
    }
  }
}
embedded_components {
  id: "sprite"
  type: "sprite"
  data: "default_animation: \"walk\"\n"
  "material: \"/builtins/materials/sprite.material\"\n"
  "textures {\n"
  "  sampler: \"texture_sampler\"\n"
  "  texture: \"/main/hero.atlas\"\n"
  "}\n"
  ""
  position {
    z: 1.0E-1
  }
}
embedded_components {
  id: "collisionobject"
  type: "collisionobject"
  data: "type: COLLISION_OBJECT_TYPE_KINEMATIC\n"
  "mass: 0.0\n"
  "group: \"hero\"\n"
  "embedded_collision_shape {\n"
  "  shapes {\n"
  "    shape_type: TYPE_BOX\n"
  "    id: \"caf\303\251 \\\"box\\\"\"\n"
  "  }\n"
  "  data: 16.0\n"
  "}\n"
  ""
  rotation {
    w: 1.0
  }
}
