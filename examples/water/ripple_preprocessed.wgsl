                     
            
fn height(at: f32) -> f32 { return rippleX_naga_oil_mod_XNZXWS43FX(at * 4.0); }
      
fn depth(at: f32) -> f32 { return rippleX_naga_oil_mod_XNZXWS43FX(at); }
