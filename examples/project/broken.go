components {
  id: "control"
  component: "/hero/hero.script"
